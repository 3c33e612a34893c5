//! Renders standard input over one name and one filter, so that bench/instructions can count what a filter costs, and what
//! blocks and includes cost. The input is one template, or several, each after a line `=== NAME` with its name: then the first is
//! rendered. A number after the program's name says how often.
#![tactic(auto)]

ghost use Rattle.std.specs.Prelude.{slice_get};
ghost use Rattle.tm_definitions.specs.Members.{or_undefined};
ghost use Rattle.tm_meaning.specs.declared.reply.Reply.TheVariants.{Value as gives};
ghost use Rattle.tm_tables.specs.Stated.{just};

use std::alloc::Global;
use std::io::{self, Read, Write};
use std::process::ExitCode;
use std::{env, mem};
use template_machine::{
    Answering, CallableAnswer, Environment, Error, Plain, StateIds, Value, ValueMap,
};

/// What stands before the name of a template.
const MARK: &str = "=== ";
/// The name of a template that stands alone.
const ALONE: &str = "source";

/// Answers its first argument.
#[derive(Drop)]
struct First;

impl Answering for First {
    ghost answers = { λ f args. just (gives (or_undefined (slice_get args 0))) };

    fn answer(&self, alloc: Global, args: &[Value]) -> CallableAnswer {
        match args.first() {
            Some(value) => match value.share() {
                Ok(value) => CallableAnswer::value(alloc, value),
                Err(error) => CallableAnswer::fault(alloc, error),
            },
            None => CallableAnswer::value(alloc, Value::undefined()),
        }
    }
}

fn main(rt: HostRuntime) -> ExitCode {
    match run(&rt) {
        Ok(()) => ExitCode::SUCCESS,
        Err(_error) => ExitCode::FAILURE,
    }
}

/// Renders what standard input holds, and writes the text.
fn run(rt: &HostRuntime) -> io::Result<()> {
    let alloc = rt.alloc();
    let times = times(rt)?;
    let mut input = String::new(alloc);
    rt.stdin().read_to_string(&mut input)?;
    match render(alloc, input.as_str(), times) {
        Ok(text) => rt.stdout().write_all(text.as_bytes()),
        Err(_error) => Err(io::Error::from(io::ErrorKind::InvalidData)),
    }
}

/// How often is rendered: as often as the word after the program's name says, or once.
fn times(rt: &HostRuntime) -> io::Result<usize> {
    let mut words = env::args(rt)?;
    words.next();
    match words.next() {
        Some(word) => Ok(word.parse().unwrap_or(1)),
        None => Ok(1),
    }
}

/// The text of a template in which `x` is a text and the filter `id` answers its argument.
fn render(alloc: Global, input: &str, times: usize) -> Result<String, Error> {
    let mut environment = Environment::new(alloc)?;
    let filter = Box::new(alloc, Plain::new(First))?;
    environment.add_filter("id", filter)?;
    let text = render_in(&mut environment, alloc, input, times);
    // The process ends after the render.
    mem::forget(environment);
    text
}

/// The same in an environment.
fn render_in(
    environment: &mut Environment<'_>,
    alloc: Global,
    input: &str,
    times: usize,
) -> Result<String, Error> {
    add_templates(environment, alloc, input)?;
    let template = environment.get_template(first_name(input))?;
    let context = context(alloc)?;
    let mut ids = StateIds::new();
    for _ in 1..times {
        template.render(&mut ids, context.share()?)?;
    }
    template.render(&mut ids, context)
}

/// The context value, in which `x` is a text.
fn context(alloc: Global) -> Result<Value, Error> {
    let mut names = ValueMap::new(alloc);
    names.insert(Value::text(alloc, "x")?, Value::text(alloc, "World")?)?;
    Value::from_map(alloc, names)
}

/// Adds the templates of an input.
fn add_templates(
    environment: &mut Environment<'_>,
    alloc: Global,
    input: &str,
) -> Result<(), Error> {
    let Some(rest) = input.strip_prefix(MARK) else {
        return environment.add_template_owned(ALONE, input.to_string(alloc)?);
    };
    for part in rest.split("\n=== ") {
        let (name, source) = name_and_source(part);
        environment.add_template_owned(name, source.to_string(alloc)?)?;
    }
    Ok(())
}

/// The name of the first template of an input.
fn first_name(input: &str) -> &str {
    match input.strip_prefix(MARK) {
        Some(rest) => name_and_source(rest).0,
        None => ALONE,
    }
}

/// The first line after its mark, and what follows.
fn name_and_source(part: &str) -> (&str, &str) {
    part.split_once('\n').unwrap_or((part, ""))
}

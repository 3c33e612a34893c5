//! Renders the template argv[2] over the object in argv[1] by Tera, for bench/run; the words after it are templates that it includes.
use std::{env, error::Error, fs};

fn main() -> Result<(), Box<dyn Error>> {
    let mut words = env::args().skip(1);
    let data = words.next().ok_or("no data")?;
    let templates: Vec<String> = words.collect();
    let context: serde_json::Value = serde_json::from_str(&fs::read_to_string(data)?)?;
    let mut engine = tera::Tera::default();
    for name in templates.iter().rev() {
        engine.add_raw_template(name, &fs::read_to_string(name)?)?;
    }
    let name = templates.first().ok_or("no template")?;
    print!("{}", engine.render(name, &tera::Context::from_value(context)?)?);
    Ok(())
}

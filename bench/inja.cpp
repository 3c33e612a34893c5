// Renders the template argv[2] over the object in argv[1] by inja, for bench/run.
#include <fstream>
#include <inja/inja.hpp>
#include <iostream>

int main(int count, char **words) {
    if (count < 3) {
        return 2;
    }
    inja::Environment environment;
    std::cout << environment.render_file(words[2], nlohmann::json::parse(std::ifstream(words[1])));
}

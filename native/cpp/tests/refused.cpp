/* What codespan.hpp refuses, one statement for each number from 1 on as CASE: texts of a temporary
 * std::string. With CASE 0 it compiles. */
#include <codespan.hpp>
#include <memory_resource>

#ifndef CASE
#error "define CASE"
#endif

void accepted(const std::string &name, std::string &changing, std::string_view view) {
    codespan::Diagnostic diagnostic{codespan::Severity::Error, name, "E1"};
    diagnostic.message = changing;
    diagnostic.message = view;
    diagnostic.notes = {name, changing, view, "a note"};
    diagnostic.notes.push_back(name);
    diagnostic.labels = {codespan::primary(0, 1, 2, changing)};
    const codespan::File file{name, view};
    codespan::try_emit({file}, {codespan::Severity::Error, std::string_view(name + "!")});
}

void refused(const std::string &name) {
    [[maybe_unused]] codespan::Diagnostic diagnostic{codespan::Severity::Error, name};
#if CASE == 1
    codespan::Diagnostic{codespan::Severity::Error, "unknown name " + name};
#elif CASE == 2
    diagnostic.message = "unknown name " + name;
#elif CASE == 3
    diagnostic.code = std::string(name);
#elif CASE == 4
    diagnostic.notes.push_back(name + " is not declared");
#elif CASE == 5
    diagnostic.notes = {name + " is not declared"};
#elif CASE == 6
    diagnostic.labels = {codespan::primary(0, 1, 2, name + " here")};
#elif CASE == 7
    diagnostic.labels = {codespan::secondary(0, 1, 2, name + " here")};
#elif CASE == 8
    const codespan::File file{name, name + "\n"};
#elif CASE == 9
    const codespan::Text text = std::pmr::string(name);
#elif CASE == 10
    const codespan::Text text = static_cast<const std::string &&>(name);
#elif CASE != 0
#error "no such CASE"
#endif
}

//! Labels within labels.

use codespan_reporting::diagnostic::{Diagnostic, Label};
use codespan_reporting::files::SimpleFiles;

use super::Data;

const PAGES: &str = "\
import library.text;

fn pages_of(book: Text<Utf8>) -> Maybe<Page> { b }

fn words_of_all_pages(book: Text<Utf8>) ---> Maybe<Key,List<Text>> { b }
";
const UNKNOWN_TYPES: &str = "\
fn five_of_x() : ? { 5 }
fn both_ends(x: int) : (?, ?) { (x, x) }
";
const THREADS: &str = "\
@since(release = \"ancient\", level = \"stable\")
public fn start<F, T>(self, f: F) --> Result<JoinOf<T>, IO>
given
    F: Called -> a T,
    F: Move + Forever,
    T: Move + Forever,
{
    self.start_with_no_checks_of_it(f)
}
";
const HARBOR: &str = "\
import threads;;
import counters;

@show(as: debug)
record Quay(Shared T);

to main() {
    @show(as: debug)
    record Tug {
        at: a Quay();
    }

    Tug can be closed {
        on close(this one) {}
    }

    to moor(s: Quay()) --> Tug {
        Tug {
            at: s
        }
    }

    let x = moor(Quay(Shared(())));

    threads.start(with x {
        set v = x;
        print(\"{v} from x\");
    });
}
";

type Sources = SimpleFiles<&'static str, String>;

pub fn overlapping() -> Data<Sources, usize> {
    let mut files = SimpleFiles::new();
    let pages = files.add("nested_lists_of.lang", PAGES.to_owned());
    let unknown = files.add("types_that_are_not_known.lang", UNKNOWN_TYPES.to_owned());
    let threads = files.add("library/threads.lang", THREADS.to_owned());
    let harbor = files.add("tugs_with_threads.txt", HARBOR.to_owned());
    let [first, second] = unknown_types(unknown);
    let diagnostics = vec![
        nested(pages),
        first,
        second,
        unmovable(harbor, threads),
        Diagnostic::error()
            .with_message("nothing was built, as there are 5 errors")
            .with_notes(vec![
                "These errors are explained: E0208, E0311, E0560.".to_owned(),
                "Each is explained by `manual CODE`, as in `manual E0208`.".to_owned(),
            ]),
    ];
    Data { files, diagnostics }
}

/// A label within another one.
fn nested(file: usize) -> Diagnostic<usize> {
    Diagnostic::error()
        .with_code("E0560")
        .with_message("a `List` can not be within a `Maybe`")
        .with_labels(vec![
            Label::primary(file, 129..139).with_message("the inner `List`"),
            Label::secondary(file, 119..140).with_message("the outer `Maybe`"),
        ])
}

/// Two labels of one range, and two within another one.
fn unknown_types(file: usize) -> [Diagnostic<usize>; 2] {
    let unknown = "this has to be a type";
    let labels = [
        vec![
            Label::primary(file, 17..18).with_message(unknown),
            Label::secondary(file, 17..18).with_message("help: the value is an `int`"),
        ],
        vec![
            Label::primary(file, 49..50).with_message(unknown),
            Label::primary(file, 52..53).with_message(unknown),
            Label::secondary(file, 48..54).with_message("help: the value is an `(int, int)`"),
        ],
    ];
    labels.map(|labels| {
        Diagnostic::error()
            .with_code("E0208")
            .with_message("the `?` that leaves a type open is not for types of functions")
            .with_labels(labels)
    })
}

/// Two files, a multi-line label that begins where one of one line ended, and long notes.
fn unmovable(harbor: usize, threads: usize) -> Diagnostic<usize> {
    let block = "`[block of tugs_with_threads.txt:25:19: 28:6 with x: main.Tug]`";
    let message = "`counters.Shared(())` can not move to another thread";
    Diagnostic::error()
        .with_code("E0311")
        .with_message(message)
        .with_labels(vec![
            Label::primary(harbor, 339..352).with_message(message),
            Label::secondary(harbor, 353..416).with_message(format!("it is in this {block}")),
            Label::secondary(threads, 141..145)
                .with_message("`Move` is a condition of `library.threads.start`"),
        ])
        .with_notes(vec![
            format!(
                "help: `library.Move` is not declared for `counters.Shared(())`, part of {block}"
            ),
            "note: needed because the record `Quay()` contains it".to_owned(),
            "note: needed because the record `main.Tug` contains that".to_owned(),
            format!("note: needed because {block} contains that"),
        ])
}

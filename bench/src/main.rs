//! Measures the compiled calls: beside the reference model, beside file systems of the host, beside memcpy, their store lists, and
//! against the volume's size and its folders. `bench/run` makes docs/FIGURES.md with it.

mod beside_files;
mod beside_memcpy;
mod beside_reference;
mod folder_volumes;
mod page;
mod plot;
mod store_lists;
mod table;
mod timed_calls;
mod timing;
mod volume_sizes;
mod volumes;

use plot::Plot;
use std::fs;
use std::path::Path;
use std::process::exit;
use table::Table;
use timing::Effort;
use volumes::Kind;

const HELP: &str = "\
usage: bench [--quick] WHAT

Prints a table as tab-separated rows, the first one the names of its columns. Times are nanoseconds of one
operation, in the best batch and in the median one: batches of 2 ms or more for 0.2 s together, three at least.
With --quick batches take 0.02 ms and 0.06 ms together, which is enough to see that all of it works.
Built without --release it says so and ends.

  volumes                 the volumes that the calls are timed on
  reference KIND          every call, compiled and by the reference model
  files TMPFS EXT4        the same operations on a volume and in these two folders; - for a folder that there is not
  memcpy SVG              the call read beside memcpy, and the same as a plot in the file SVG
  stores                  stores, bytes, lines and fences of the changing calls, from their store lists
  sources                 figures of the source documents beside those of `stores`
  sizes KIND SVG          calls on volumes of 16 to 4,096 pages, and the same as a plot in the file SVG
  folders                 calls on volumes with folders
  clock                   what reading the clock takes
  page TEMPLATE FOLDER    prints the template, filled in with the tables (NAME.tsv) and texts (NAME.txt) of a folder

KIND is nearly-empty, half-full, full, every-second-page-free or long-directory.
";

fn main() {
    let mut arguments: Vec<String> = std::env::args().skip(1).collect();
    let quick = arguments.first().is_some_and(|first| first == "--quick");
    if quick {
        arguments.remove(0);
    }
    let effort = if quick { Effort::QUICK } else { Effort::FULL };
    let words: Vec<&str> = arguments.iter().map(String::as_str).collect();
    if matches!(words[..], ["--help" | "-h"]) {
        print!("{HELP}");
        return;
    }
    if cfg!(debug_assertions) {
        fail("built without --release; the times would say nothing");
    }
    match words[..] {
        ["volumes"] => print(&beside_reference::volumes()),
        ["reference", name] => print(&beside_reference::times(kind(name), effort)),
        ["files", tmpfs, ext4] => {
            print(&beside_files::times(folder(tmpfs), folder(ext4), effort));
        }
        ["memcpy", svg] => print_with_plot(beside_memcpy::times(effort), svg),
        ["stores"] => print(&store_lists::counted()),
        ["sources"] => print(&store_lists::beside_sources()),
        ["sizes", name, svg] => print_with_plot(volume_sizes::times(kind(name), effort), svg),
        ["folders"] => print(&folder_volumes::times(effort)),
        ["clock"] => println!("{}", table::shown(timing::clock(effort).best)),
        ["page", template, folder] => print_page(Path::new(template), Path::new(folder)),
        _ => {
            eprint!("{HELP}");
            exit(2);
        }
    }
}

fn print(table: &Table) {
    print!("{}", table.tabbed());
}

fn print_with_plot((table, plot): (Table, Plot), path: &str) {
    fs::write(path, plot.svg()).unwrap_or_else(|error| fail(&format!("{path}: {error}")));
    print(&table);
}

fn print_page(template: &Path, folder: &Path) {
    let read = fs::read_to_string(template);
    let text = read.unwrap_or_else(|error| fail(&format!("{}: {error}", template.display())));
    match page::filled(&text, folder) {
        Ok(page) => print!("{page}"),
        Err(error) => fail(&format!("{}: {error}", template.display())),
    }
}

/// A folder from the command line, - for none.
fn folder(name: &str) -> Option<&Path> {
    (name != "-").then_some(Path::new(name))
}

fn kind(name: &str) -> Kind {
    Kind::named(name).unwrap_or_else(|| fail(&format!("{name} is no kind of volume")))
}

/// Says what is wrong and ends.
fn fail(error: &str) -> ! {
    eprintln!("bench: {error}");
    exit(2)
}

//! The module around the equations: what it uses, and which definitions are opened.

use std::fmt::Write as _;

/// The definitions that have to be opened, by module: each marked `unfoldable pub`.
pub fn definitions(specs: &str) -> std::io::Result<Vec<(String, Vec<String>)>> {
    let mut modules = Vec::new();
    for entry in std::fs::read_dir(specs)? {
        let path = entry?.path();
        let Some(module) = path.file_stem().and_then(|stem| stem.to_str()) else {
            continue;
        };
        let text = std::fs::read_to_string(&path)?;
        let names: Vec<String> = text
            .lines()
            .filter_map(|line| line.trim_start().strip_prefix("unfoldable pub "))
            .filter_map(|rest| rest.split_whitespace().next())
            .map(str::to_string)
            .collect();
        if !names.is_empty() {
            modules.push((module.to_string(), names));
        }
    }
    modules.sort();
    Ok(modules)
}

/// Definitions of the module itself. The values of a long write's data take long to compute, and are not computed where
/// `some_values` leaves them out.
const OWN: &str = "
-- a store list with 0 for the values in the pages ps, but for those in the places ks of a page
some_values : List ℕ → List ℕ → List ℕ → List ℕ
some_values ps ks [] = []
some_values ps ks (i ∷ []) = i ∷ []
some_values ps ks (i ∷ x ∷ r) =
    i ∷ cond (not (has (i / 64) ps) || has (i % 64) ks) x 0 ∷ some_values ps ks r
";

/// The module's first lines.
pub fn header(definitions: &[(String, Vec<String>)]) -> String {
    let mut text = String::from(
        "use Prim.Native.Nat.{ℕ, ◌/◌, ◌%◌}\n\
         use mathlib.Core.Path.{◌≡◌, refl}\n\
         use mathlib.Core.Bool.{true, false, cond, ◌||◌, not}\n\
         use mathlib.Core.List.{List, [], ◌∷◌, ◌++◌}\n\
         use mathlib.Core.Option.{Option, none, some}\n\
         use lib.ListN.{get_or, replicate}\n\
         use Rattle.model.specs.Words.{Mem}\n\
         use Rattle.model.specs.Answer.{Answer, refused, done, Nothing, map_answer}\n\
         use Rattle.model.specs.Power.{Power, held, cut}\n\
         use Rattle.model.specs.FileMap.{FileMap}\n\
         use Rattle.model.specs.FileMap.{create, create_folder, link, unlink, rename, write, set_size}\n\
         use Rattle.model.specs.FileMap.{clean, recover}\n",
    );
    for (module, names) in definitions {
        let names = names.join(", ");
        let _ = writeln!(text, "use Rattle.model.specs.{module}.{{{names}}}");
    }
    text + OWN
}

/// The words with which an equation opens the definitions.
pub fn unfolding(definitions: &[(String, Vec<String>)]) -> String {
    let names: Vec<&str> = definitions
        .iter()
        .flat_map(|(_, names)| names.iter().map(String::as_str))
        .collect();
    format!("unfolding {} some_values", names.join(" "))
}

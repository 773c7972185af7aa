//! The equations that one draw asks, as antt.

use crate::term;

/// An equation: a definition at what was drawn, and the answer of the reference.
pub struct Equation {
    /// The type of both sides.
    pub kind: &'static str,
    /// The definition, applied.
    pub left: String,
    /// The reference's answer.
    pub right: String,
}

/// The equations of one draw, all named after its stratum.
pub struct Sheet {
    name: String,
    locals: Vec<(String, &'static str, String)>,
    equations: Vec<(String, Equation)>,
}

impl Sheet {
    /// A sheet without equations; the name is that of its first equation.
    pub fn new(name: &str) -> Sheet {
        Sheet {
            name: name.to_string(),
            locals: Vec::new(),
            equations: Vec::new(),
        }
    }

    /// Defines the words of a volume, which are quick to read; answers their name.
    pub fn words(&mut self, volume: &[u8]) -> String {
        self.define("words", "Mem", term::memory(volume))
    }

    /// Defines the bytes of a volume or of a buffer; answers their name.
    pub fn bytes(&mut self, part: &str, bytes: &[u8]) -> String {
        self.define(part, "List ℕ", term::bytes(bytes))
    }

    /// Defines the words of a store list; answers their name.
    pub fn list(&mut self, words: &[u64]) -> String {
        self.define("lent", "List ℕ", term::numbers(words))
    }

    fn define(&mut self, part: &str, kind: &'static str, body: String) -> String {
        let name = format!("{}-{part}", self.name);
        self.locals.push((name.clone(), kind, body));
        name
    }

    /// Asks the draw's first equation.
    pub fn ask(&mut self, equation: Equation) {
        self.equations.push((self.name.clone(), equation));
    }

    /// Asks a further equation, of what the call leaves in lent memory or of a part of a map.
    pub fn ask_of(&mut self, part: &str, equation: Equation) {
        let name = format!("{}-{part}", self.name);
        self.equations.push((name, equation));
    }

    /// How many equations there are.
    pub fn equations(&self) -> u64 {
        self.equations.len() as u64
    }

    /// The sheet as antt; `unfolding` names the definitions to open.
    pub fn text(&self, unfolding: &str) -> String {
        let mut text = String::new();
        let mut opened = unfolding.to_string();
        for (name, kind, body) in &self.locals {
            text += &format!("\n{name} : {kind}\n{name} = {body}\n");
            opened += &format!(" {name}");
        }
        for (name, Equation { kind, left, right }) in &self.equations {
            text += &format!("\n{name} : ◌≡◌ {{A = {kind}}} ({left}) ({right})\n");
            text += &format!("{opened}\n{name} = refl\n");
        }
        text
    }
}

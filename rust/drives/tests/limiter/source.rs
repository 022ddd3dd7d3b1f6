//! Rattle sources, read as far as this asks: which words a function has, with all
//! that it calls, and which statements have a name.

use std::collections::{BTreeMap, BTreeSet};
use std::fs;
use std::path::Path;

/// The words of a branch or a loop; `else` and `?` can stand without an `if`.
pub const BRANCHES: [&str; 9] = [
    "if", "else", "match", "?", "while", "for", "loop", "&&", "||",
];

/// The operators of two characters that matter here.
const PAIRS: [&str; 4] = ["&&", "||", "::", "!="];

/// The modules' texts by path: `arith` is arith/src/lib.rt, `arith::words` is
/// arith/src/words.rt.
pub struct Sources(BTreeMap<String, Vec<String>>);

impl Sources {
    /// Modules with their texts.
    pub fn new(texts: &[(&str, &str)]) -> Sources {
        let module = |(path, text): &(&str, &str)| (path.to_string(), tokens(text));
        Sources(texts.iter().map(module).collect())
    }

    /// All modules under a folder of crates.
    pub fn read(crates: &Path) -> Sources {
        let mut modules = BTreeMap::new();
        for entry in fs::read_dir(crates).expect("the crates") {
            let folder = entry.expect("a crate").path();
            let name = folder.file_name().unwrap().to_str().unwrap().to_string();
            for file in fs::read_dir(folder.join("src")).expect("a crate's sources") {
                let file = file.expect("a source").path();
                let path = match file.file_stem().unwrap().to_str().unwrap() {
                    "lib" => name.clone(),
                    module => format!("{name}::{module}"),
                };
                let text = fs::read_to_string(&file).expect("a source's text");
                modules.insert(path, tokens(&text));
            }
        }
        Sources(modules)
    }

    /// What a function and all that it calls have of branches and loops, a function
    /// that calls itself and a call whose source is not here among them: each as
    /// `module::function: word`.
    pub fn branches(&self, module: &str, function: &str) -> BTreeSet<String> {
        let mut found = BTreeSet::new();
        self.walk(module, function, &mut Vec::new(), &mut found);
        found
    }

    fn walk(
        &self,
        module: &str,
        name: &str,
        above: &mut Vec<String>,
        found: &mut BTreeSet<String>,
    ) {
        let place = format!("{module}::{name}");
        if above.contains(&place) {
            found.insert(format!("{place}: calls itself"));
            return;
        }
        let Some(function) = self.function(module, name) else {
            found.insert(format!("{place}: no source"));
            return;
        };
        let words = function.iter().filter(|t| BRANCHES.contains(&t.as_str()));
        found.extend(words.map(|word| format!("{place}: {word}")));
        above.push(place);
        for path in calls(&function) {
            let (module, name) = self.resolve(module, &path);
            self.walk(&module, &name, above, found);
        }
        above.pop();
    }

    /// The statements of a function that have a name, but for those that ask only for
    /// its length; none where there is no such function.
    pub fn statements(&self, module: &str, function: &str, name: &str) -> Vec<Vec<String>> {
        let code = self.function(module, function).unwrap_or_default();
        let body = code.iter().position(|token| token == "{");
        let mut statements = statements(&code[body.unwrap_or(code.len())..]);
        statements.retain(|statement| has(statement, name));
        statements
    }

    /// Whether a module brings a function of another in under its name.
    pub fn imports(&self, module: &str, path: &str) -> bool {
        let line = tokens(&format!("use {path};"));
        let module = self.0.get(module).map(Vec::as_slice).unwrap_or_default();
        module.windows(line.len()).any(|tokens| tokens == line)
    }

    /// The same modules, one with another text.
    pub fn with(mut self, module: &str, text: &str) -> Sources {
        self.0.insert(module.to_string(), tokens(text));
        self
    }

    /// The functions that a function calls, as `module::function`.
    pub fn called(&self, module: &str, name: &str) -> BTreeSet<String> {
        let function = self.function(module, name).expect("the function's source");
        let paths = calls(&function).into_iter();
        paths
            .map(|path| self.resolve(module, &path))
            .map(|(module, name)| format!("{module}::{name}"))
            .collect()
    }

    /// Where a path of a module leads: a function of the same module, of another
    /// crate, or of a module of the same crate.
    fn resolve(&self, module: &str, path: &[String]) -> (String, String) {
        let (name, front) = path.split_last().expect("a path has a name");
        let front = front.join("::");
        let crate_name = module.split("::").next().unwrap();
        let place = if front.is_empty() {
            module.to_string()
        } else if self.0.contains_key(&front) {
            front
        } else {
            format!("{crate_name}::{front}")
        };
        (place, name.clone())
    }

    /// A function's code; none where the module has not exactly one of that name
    /// with a body.
    fn function(&self, module: &str, name: &str) -> Option<Vec<String>> {
        let tokens = self.0.get(module)?;
        let is_start = |i: &usize| tokens[*i] == "fn" && tokens[i + 1] == name;
        let mut starts = (0..tokens.len() - 1).filter(is_start);
        let start = starts.next()?;
        match starts.next() {
            None => code(&tokens[start..]),
            Some(_) => None,
        }
    }
}

/// The function that some tokens begin with, without the clauses of its contract, if
/// it has a body.
fn code(tokens: &[String]) -> Option<Vec<String>> {
    let mut code = Vec::new();
    let mut place = 0;
    let mut depth = 0; // of the brackets around a parameter's type
    loop {
        match tokens.get(place)?.as_str() {
            // a clause's name may stand before its braces
            "requires" | "ensures" => {
                place += tokens[place..].iter().position(|token| token == "{")?;
                place += block_length(&tokens[place..])?;
            }
            "{" => {
                let body = &tokens[place..place + block_length(&tokens[place..])?];
                code.extend_from_slice(body);
                return Some(code);
            }
            ";" if depth == 0 => return None,
            token => {
                depth += match token {
                    "(" | "[" => 1,
                    ")" | "]" => -1,
                    _ => 0,
                };
                code.push(token.to_string());
                place += 1;
            }
        }
    }
}

/// How many tokens a block in braces has.
fn block_length(tokens: &[String]) -> Option<usize> {
    let mut depth = 0;
    for (i, token) in tokens.iter().enumerate() {
        depth += match token.as_str() {
            "{" => 1,
            "}" => -1,
            _ => 0,
        };
        if depth == 0 {
            return Some(i + 1);
        }
    }
    None
}

/// A body's statements and what stands before its blocks, without what ends them. A
/// `;` in brackets ends none: it is an array's.
fn statements(body: &[String]) -> Vec<Vec<String>> {
    let mut depth = 0;
    let ends = |token: &String| {
        depth += match token.as_str() {
            "(" | "[" => 1,
            ")" | "]" => -1,
            _ => 0,
        };
        depth == 0 && [";", "{", "}"].contains(&token.as_str())
    };
    body.split(ends).map(<[String]>::to_vec).collect()
}

/// Whether a statement has a name, and does not only ask for its length.
fn has(statement: &[String], name: &str) -> bool {
    let places = (0..statement.len()).filter(|i| statement[*i] == name);
    let length = [".", "len", "(", ")"];
    places
        .map(|place| &statement[place + 1..])
        .any(|rest| !rest.starts_with(&length.map(String::from)))
}

/// The paths that are called. A method's begins with a dot and a macro's ends in `!`:
/// no module has a source for them.
fn calls(function: &[String]) -> Vec<Vec<String>> {
    let word = |i: &usize| is_word(&function[*i]) && function[i - 1] != "fn";
    let words = (1..function.len() - 1).filter(word);
    words.filter_map(|i| call_at(function, i)).collect()
}

/// The path of a call whose last word stands at a place, if one does.
fn call_at(function: &[String], place: usize) -> Option<Vec<String>> {
    let mut start = place;
    while start > 2 && function[start - 1] == "::" {
        start -= 2;
    }
    let words = function[start..=place].iter().filter(|t| *t != "::");
    let mut path: Vec<String> = words.cloned().collect();
    if function[start - 1] == "." {
        path.insert(0, ".".to_string());
    }
    match function[place + 1].as_str() {
        "(" => Some(path),
        "!" => {
            path.push("!".to_string());
            Some(path)
        }
        _ => None,
    }
}

fn is_word(token: &str) -> bool {
    token.starts_with(|c: char| c.is_alphabetic() || c == '_')
}

/// Words, numbers and operators, without comments and texts.
pub fn tokens(text: &str) -> Vec<String> {
    let mut tokens = Vec::new();
    let mut rest = text;
    while let Some(c) = rest.chars().next() {
        let length = if c.is_whitespace() {
            c.len_utf8()
        } else if rest.starts_with("//") {
            rest.find('\n').unwrap_or(rest.len())
        } else if c == '"' {
            2 + rest[1..].find('"').expect("the end of a text")
        } else {
            let length = token_length(rest);
            tokens.push(rest[..length].to_string());
            length
        };
        rest = &rest[length..];
    }
    tokens
}

/// The length of the token that a text begins with.
fn token_length(text: &str) -> usize {
    let in_word = |c: char| c.is_alphanumeric() || c == '_';
    let word = text.find(|c| !in_word(c)).unwrap_or(text.len());
    if word > 0 {
        word
    } else if PAIRS.iter().any(|pair| text.starts_with(pair)) {
        2
    } else {
        text.chars().next().map_or(0, char::len_utf8)
    }
}

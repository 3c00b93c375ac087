//! A copy of the crates that has their definitions, laws and theorems, and no code: what refuses a change
//! there is a card, a law or a theorem, and never the proof of a function.

use std::fs;
use std::io;
use std::path::{Path, PathBuf};
use std::process::{Command, Stdio};

/// A crate of the copy: its name, and the crates that it uses.
pub struct Part {
    pub name: String,
    pub uses: Vec<String>,
}

/// A file of definitions: its name below the top folder, and its crate.
#[derive(Clone)]
pub struct Definitions {
    pub name: String,
    pub crate_name: String,
}

/// The copy, lowest crate first.
pub struct Tree {
    top: PathBuf,
    parts: Vec<Part>,
}

impl Tree {
    /// Copies the definitions of the repository at `from` to `to`, which is not there yet.
    pub fn copied(from: &Path, to: &Path) -> io::Result<Tree> {
        fs::create_dir_all(to.join("crates"))?;
        let listed = listed(&fs::read_to_string(from.join("crates.txt"))?);
        let own: Vec<String> = listed.iter().map(|part| part.name.clone()).collect();
        let has_specs = |name: &str| from.join("crates").join(name).join("specs").is_dir();
        let mut parts = Vec::new();
        let mut lines = String::new();
        for part in listed {
            if !has_specs(&part.name)
                || !from
                    .join("crates")
                    .join(&part.name)
                    .join("src/lib.rt")
                    .exists()
            {
                continue;
            }
            let uses: Vec<String> = part
                .uses
                .into_iter()
                .filter(|u| has_specs(u) || !own.contains(u))
                .collect();
            lines.push_str(&format!("{}: {}\n", part.name, uses.join(" ")));
            let source = from.join("crates").join(&part.name);
            let target = to.join("crates").join(&part.name);
            copy_all(&source.join("specs"), &target.join("specs"))?;
            copy_laws(&source.join("proofs"), &target.join("proofs"))?;
            fs::create_dir_all(target.join("src"))?;
            let code = fs::read_to_string(source.join("src/lib.rt"))?;
            fs::write(target.join("src/lib.rt"), without_functions(&code))?;
            parts.push(Part {
                name: part.name,
                uses,
            });
        }
        fs::write(to.join("crates.txt"), lines)?;
        Ok(Tree {
            top: to.to_path_buf(),
            parts,
        })
    }

    /// The files of definitions: not the laws, nor the cards and what they are made of.
    pub fn definitions(&self) -> io::Result<Vec<Definitions>> {
        let mut files = Vec::new();
        for part in self.parts.iter().filter(|part| part.name != "laws") {
            let specs = format!("crates/{}/specs", part.name);
            let mut here: Vec<String> = fs::read_dir(self.top.join(&specs))?
                .map(|entry| entry.map(|e| e.file_name().to_string_lossy().into_owned()))
                .collect::<io::Result<_>>()?;
            here.retain(|name| is_of_definitions(name));
            here.sort();
            files.extend(here.into_iter().map(|name| Definitions {
                name: format!("{specs}/{name}"),
                crate_name: part.name.clone(),
            }));
        }
        Ok(files)
    }

    /// Where a file of definitions stands in this copy.
    pub fn path(&self, definitions: &Definitions) -> PathBuf {
        self.top.join(&definitions.name)
    }

    /// The first crate that is not proved of all.
    pub fn refusing_from_the_lowest(&self) -> io::Result<Option<String>> {
        match self.parts.first() {
            Some(lowest) => self.refusing(&lowest.name),
            None => Ok(None),
        }
    }

    /// The first crate that is not proved, of one and those above it; none where all are.
    pub fn refusing(&self, from: &str) -> io::Result<Option<String>> {
        let mut above = vec![from.to_string()];
        for part in &self.parts {
            if part.name != from && !part.uses.iter().any(|u| above.contains(u)) {
                continue;
            }
            if part.name != from {
                above.push(part.name.clone());
            }
            if !self.is_proved(&part.name)? {
                return Ok(Some(part.name.clone()));
            }
        }
        Ok(None)
    }

    fn is_proved(&self, name: &str) -> io::Result<bool> {
        let status = Command::new("rt")
            .arg("check")
            .current_dir(self.top.join("crates").join(name))
            .stdin(Stdio::null())
            .stdout(Stdio::null())
            .stderr(Stdio::null())
            .status()?;
        Ok(status.success())
    }
}

fn is_of_definitions(file: &str) -> bool {
    file.strip_suffix(".antt")
        .is_some_and(|stem| !["Lib", "Laws", "Cards"].contains(&stem))
}

/// The crates of a crates.txt, in its order. Behind a name the word staticlib may stand.
fn listed(text: &str) -> Vec<Part> {
    text.lines()
        .map(|line| line.split('#').next().unwrap_or("").trim())
        .filter_map(|line| line.split_once(':'))
        .map(|(name, uses)| Part {
            name: name.split_whitespace().take(1).collect(),
            uses: uses.split_whitespace().map(String::from).collect(),
        })
        .collect()
}

/// Copies the laws and cards of a folder of proofs, and no function's proof.
fn copy_laws(from: &Path, to: &Path) -> io::Result<()> {
    if !from.is_dir() {
        return Ok(());
    }
    fs::create_dir_all(to)?;
    for entry in fs::read_dir(from)? {
        let entry = entry?;
        let target = to.join(entry.file_name());
        if entry.file_name() == "Laws" {
            copy_all(&entry.path(), &target)?;
        } else if entry.file_type()?.is_file() {
            fs::copy(entry.path(), target)?;
        }
    }
    Ok(())
}

fn copy_all(from: &Path, to: &Path) -> io::Result<()> {
    fs::create_dir_all(to)?;
    for entry in fs::read_dir(from)? {
        let entry = entry?;
        let target = to.join(entry.file_name());
        if entry.file_type()?.is_dir() {
            copy_all(&entry.path(), &target)?;
        } else {
            fs::copy(entry.path(), target)?;
        }
    }
    Ok(())
}

/// The code without its functions and what these cite: its structs, enums and constants. An item starts and
/// ends at the left margin.
fn without_functions(code: &str) -> String {
    let mut kept = String::new();
    let mut in_function = false;
    for line in code.lines() {
        if in_function {
            in_function = line != "}";
            continue;
        }
        let plain = line
            .trim_start_matches("pub ")
            .trim_start_matches("extern \"C\" ");
        if plain.starts_with("fn ") {
            in_function = !line.ends_with('}');
            continue;
        }
        let is_of_function = ["ghost use ", "#[unsafe(", "#[cycle("]
            .iter()
            .any(|start| line.starts_with(start));
        if !is_of_function {
            kept.push_str(line);
            kept.push('\n');
        }
    }
    kept
}

#[cfg(test)]
mod tests {
    use super::*;

    #[test]
    fn functions_go_and_types_stay() {
        let code = "ghost use a.b;\n#[derive(Clone, Copy)]\npub struct S {\n    pub x: u64,\n}\n\n// f\n#[cycle(f)]\npub fn f(s: S) -> u64\n    ensures { result ≡ 1 }\n{\n    1\n}\n\npub const N: u64 = 2;\n";
        assert_eq!(
            without_functions(code),
            "#[derive(Clone, Copy)]\npub struct S {\n    pub x: u64,\n}\n\n// f\n\npub const N: u64 = 2;\n"
        );
    }

    #[test]
    fn crates_are_read_with_their_uses() {
        let parts = listed("# all\nmodel:\n# laws\nlaws staticlib: model\n");
        assert_eq!(parts.len(), 2);
        assert_eq!(
            (parts[1].name.as_str(), parts[1].uses.as_slice()),
            ("laws", &["model".to_string()][..])
        );
    }
}

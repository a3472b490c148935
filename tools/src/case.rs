//! A case that two programs must answer alike: a scenario for `simulate`, or a
//! folder of files with names on standard input for `check_services`.

use second::program::Files;

/// What stands in a folder under a name.
#[derive(Clone, PartialEq, Eq, Debug)]
pub enum Entry {
    File(Vec<u8>),
    Directory,
    LostLink,
}

/// The standard input of `check_services` and the folder it runs in.
#[derive(Clone, PartialEq, Eq, Debug)]
pub struct Folder {
    pub input: Vec<u8>,
    pub entries: Vec<(Vec<u8>, Entry)>,
}

impl Files for &Folder {
    fn read(&mut self, name: &[u8], most: usize) -> Option<Vec<u8>> {
        let (_, entry) = self.entries.iter().find(|(other, _)| other == name)?;
        match entry {
            Entry::File(bytes) => Some(bytes[..bytes.len().min(most)].to_vec()),
            Entry::Directory | Entry::LostLink => None,
        }
    }
}

#[derive(Clone, PartialEq, Eq, Debug)]
pub enum Case {
    Scenario(Vec<u8>),
    Folder(Folder),
}

impl Case {
    /// The answer of this program, run inside this process.
    pub fn own_answer(&self) -> Vec<u8> {
        match self {
            Case::Scenario(input) => second::scenario::simulate(input),
            Case::Folder(folder) => {
                let mut files = folder;
                second::program::check_services(&folder.input, &mut files)
            }
        }
    }

    /// The whole case as text; bytes that do not print are escaped.
    pub fn written(&self) -> String {
        match self {
            Case::Scenario(input) => printable(input),
            Case::Folder(folder) => folder.written(),
        }
    }
}

impl Folder {
    fn written(&self) -> String {
        let mut text = format!("standard input:\n{}", printable(&self.input));
        for (name, entry) in &self.entries {
            let name = printable(name);
            text.push_str(&match entry {
                Entry::File(bytes) => {
                    format!("\nfile {name}, {} bytes:\n{}", bytes.len(), printable(bytes))
                }
                Entry::Directory => format!("\ndirectory {name}"),
                Entry::LostLink => format!("\nlink to nothing {name}"),
            });
        }
        text.push('\n');
        text
    }
}

/// Bytes as text: newlines stay, all else that does not print is escaped.
pub fn printable(bytes: &[u8]) -> String {
    let mut text = String::new();
    for byte in bytes {
        match byte {
            b'\n' => text.push('\n'),
            32..=126 => text.push(char::from(*byte)),
            other => text.push_str(&format!("\\x{other:02x}")),
        }
    }
    text
}

//! The published DES vectors, read from `published.txt`.

use crate::hex;

/// One known answer: a key, a plaintext and the ciphertext printed for them.
pub struct Vector {
    pub key: [u8; 8],
    pub plain: [u8; 8],
    pub cipher: [u8; 8],
}

/// One published table under its name.
pub struct Table {
    pub name: &'static str,
    pub vectors: Vec<Vector>,
}

/// The tables in file order. `##` starts a comment, `#` a table's name.
pub fn tables() -> Vec<Table> {
    let mut tables: Vec<Table> = Vec::new();
    let lines = include_str!("../published.txt").lines();
    for line in lines.filter(|line| !line.starts_with("##")) {
        if let Some(name) = line.strip_prefix("# ") {
            let vectors = Vec::new();
            tables.push(Table { name, vectors });
        } else {
            let table = tables.last_mut().expect("a vector stands under a name");
            table.vectors.push(vector(line));
        }
    }
    tables
}

fn vector(line: &str) -> Vector {
    let words: Vec<&str> = line.split(' ').collect();
    let [key, plain, cipher] = words[..] else {
        panic!("{line} does not have three words");
    };
    Vector {
        key: hex::decode(key),
        plain: hex::decode(plain),
        cipher: hex::decode(cipher),
    }
}

//! C programs that the tests compile against the engine's static library.

use std::fs::write;
use std::path::{Path, PathBuf};
use std::process::Command;

/// Where a file of the repository lies.
pub fn in_repository(file: &str) -> PathBuf {
    Path::new(env!("CARGO_MANIFEST_DIR")).join("..").join(file)
}

/// A language that the header is for.
pub struct Language {
    /// Those that may be there. The first has to be.
    compilers: [&'static str; 3],
    standards: &'static [&'static str],
    /// What the name of a source ends in.
    pub extension: &'static str,
}

pub const C: Language = Language {
    compilers: ["cc", "gcc", "clang"],
    standards: &["-std=c99", "-std=c11", "-std=c17"],
    extension: "c",
};

pub const C_PLUS_PLUS: Language = Language {
    compilers: ["c++", "g++", "clang++"],
    standards: &["-std=c++11", "-std=c++14", "-std=c++17", "-std=c++20"],
    extension: "cpp",
};

impl Language {
    /// The words that start each compiler that is found, at each standard.
    pub fn compilers(&self) -> Vec<[&'static str; 2]> {
        let starts = |compiler: &&str| Command::new(compiler).arg("--version").output().is_ok();
        let found: Vec<_> = self.compilers.into_iter().filter(starts).collect();
        assert!(found.starts_with(&self.compilers[..1]), "{} does not start", self.compilers[0]);
        found
            .iter()
            .flat_map(|compiler| self.standards.iter().map(move |standard| [*compiler, standard]))
            .collect()
    }

    /// Writes a source with this text into the directory.
    pub fn write(&self, directory: &str, name: &str, text: &str) -> PathBuf {
        let source = Path::new(directory).join(format!("{name}.{}", self.extension));
        write(&source, text).unwrap_or_else(|error| panic!("{}: {error}", source.display()));
        source
    }
}

/// Compiles a program with the compiler that these words start, header and library at hand. No warning is let pass.
pub fn compile(compiler: &[&str], source: &Path, program: &Path) {
    let library = in_repository("target/staticlib/libdemosaic_c.a");
    assert!(
        library.is_file(),
        "the library {} is missing: run `./run` first",
        library.display()
    );
    let output = Command::new(compiler[0])
        .args(&compiler[1..])
        .args(["-Wall", "-Wextra", "-Wconversion", "-Wpedantic", "-Werror", "-I"])
        .arg(in_repository("include"))
        .arg("-o")
        .args([program, source, &library])
        .output()
        .unwrap_or_else(|error| panic!("{} does not start: {error}", compiler[0]));
    assert!(
        output.status.success(),
        "{} fails, {}:\n{}",
        compiler.join(" "),
        output.status,
        String::from_utf8_lossy(&output.stderr)
    );
}

/// One of the repository's C programs, compiled into this directory.
pub fn compiled(source: &str, directory: &str) -> PathBuf {
    let source = in_repository(source);
    let program = Path::new(directory).join(source.file_stem().unwrap());
    compile(&["cc", "-O2", "-std=c11"], &source, &program);
    program
}

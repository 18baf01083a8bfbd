//! Runs of LuaLaTeX.

use super::Failure;
use std::ffi::OsString;
use std::path::{Path, PathBuf};
use std::process::{Command, Stdio};
use std::{env, fs, io};

/// The package, for where TeX has none.
const PACKAGE: [(&str, &str); 8] = [
    ("barleychime.sty", include_str!("../../../../../latex/barleychime.sty")),
    ("barleychime.lua", include_str!("../../../../../latex/barleychime.lua")),
    ("barleychime-nodes.lua", include_str!("../../../../../latex/barleychime-nodes.lua")),
    ("barleychime-galley.lua", include_str!("../../../../../latex/barleychime-galley.lua")),
    ("barleychime-list.lua", include_str!("../../../../../latex/barleychime-list.lua")),
    ("barleychime-pages.lua", include_str!("../../../../../latex/barleychime-pages.lua")),
    ("barleychime-options.lua", include_str!("../../../../../latex/barleychime-options.lua")),
    ("barleychime-files.lua", include_str!("../../../../../latex/barleychime-files.lua")),
];

/// What tells which pages there were: the lists, the galleys, and where everything stood.
pub const WRITTEN: [&str; 3] = [".list", ".galley.txt", ".pages"];

/// A document, and where TeX writes what it makes of it.
pub struct Job {
    document: PathBuf,
    folder: PathBuf,
    name: OsString,
}

impl Job {
    pub fn new(document: &Path, folder: Option<&Path>) -> Result<Job, Failure> {
        let name = match document.extension() {
            Some(extension) if extension == "tex" => document.file_stem(),
            _ => document.file_name(),
        };
        let name = name.ok_or_else(|| Failure::NoDocument(document.into()))?.to_owned();
        Ok(Job { document: document.into(), folder: folder.unwrap_or(Path::new("")).into(), name })
    }

    /// A file of the job: `ending` is what comes after its name.
    pub fn file(&self, ending: &str) -> PathBuf {
        let mut name = self.name.clone();
        name.push(ending);
        self.folder.join(name)
    }

    /// A text of the job; empty if it is not there. TeX may write what is no text.
    pub fn text(&self, ending: &str) -> String {
        fs::read(self.file(ending)).map_or(String::new(), |bytes| String::from_utf8_lossy(&bytes).into_owned())
    }

    pub fn remove(&self, ending: &str) {
        let _ = fs::remove_file(self.file(ending));
    }

    /// The files of WRITTEN that are there, by their endings.
    pub fn written(&self) -> Vec<(&'static str, Vec<u8>)> {
        WRITTEN.iter().filter_map(|ending| Some((*ending, fs::read(self.file(ending)).ok()?))).collect()
    }

    /// A file as it was. Where it cannot be written, the error that led here says more than that.
    pub fn put_back(&self, ending: &str, bytes: &[u8]) {
        let _ = fs::write(self.file(ending), bytes);
    }

    /// What the next run reads of this one, so that nothing more changes once it is the same twice.
    pub fn references(&self) -> String {
        [".aux", ".toc", ".lof", ".lot", ".out"].map(|ending| self.text(ending)).concat()
    }
}

/// LuaLaTeX, with the package where it can be found.
pub struct TeX {
    inputs: Option<OsString>,
    folder: Option<PathBuf>,
}

impl TeX {
    /// The package that comes with the command is used only where TeX finds none.
    pub fn new() -> Result<TeX, Failure> {
        let found = Command::new("kpsewhich").arg("barleychime.sty").stderr(Stdio::null()).output();
        match found {
            Ok(answer) if answer.status.success() => Ok(TeX { inputs: None, folder: None }),
            Ok(_) => TeX::with_package().map_err(Failure::NoPackage),
            Err(error) => Err(Failure::NoProgram { program: "kpsewhich", error }),
        }
    }

    fn with_package() -> io::Result<TeX> {
        let folder = env::temp_dir().join(format!("barleychime-{}", std::process::id()));
        fs::create_dir_all(&folder)?;
        for (name, text) in PACKAGE {
            fs::write(folder.join(name), text)?;
        }
        let mut inputs = OsString::from(".:");
        inputs.push(&folder);
        inputs.push(":");
        inputs.push(env::var_os("TEXINPUTS").unwrap_or_default());
        Ok(TeX { inputs: Some(inputs), folder: Some(folder) })
    }

    /// One run. An error is what TeX shows of it.
    pub fn run(&self, job: &Job) -> Result<(), Failure> {
        let mut command = Command::new("lualatex");
        command.args(["-interaction=nonstopmode", "-halt-on-error"]);
        if !job.folder.as_os_str().is_empty() {
            let mut folder = OsString::from("-output-directory=");
            folder.push(&job.folder);
            command.arg(folder);
        }
        if let Some(inputs) = &self.inputs {
            command.env("TEXINPUTS", inputs);
        }
        let answer = command.arg(&job.document).stdin(Stdio::null()).output();
        let answer = answer.map_err(|error| Failure::NoProgram { program: "lualatex", error })?;
        match answer.status.success() {
            true => Ok(()),
            false => Err(Failure::Stopped(shown(&String::from_utf8_lossy(&answer.stdout), job))),
        }
    }
}

impl Drop for TeX {
    fn drop(&mut self) {
        if let Some(folder) = &self.folder {
            let _ = fs::remove_dir_all(folder);
        }
    }
}

/// What TeX shows of its first error, up to the end of what it says of it.
fn shown(output: &str, job: &Job) -> String {
    let over = |row: &str| row.starts_with("!  ==>") || row.contains("words of node memory");
    let error: Vec<&str> =
        output.lines().skip_while(|row| !row.starts_with('!')).take_while(|row| !over(row)).collect();
    let rows: Vec<&str> = output.lines().collect();
    let told = if error.is_empty() { &rows[rows.len().saturating_sub(3)..] } else { &error[..] };
    let (document, log) = (job.document.display(), job.file(".log"));
    format!("{document}: TeX stops at an error; {} says more\n{}", log.display(), told.join("\n").trim_end())
}

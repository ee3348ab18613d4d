//! What the command line says, and where the files go.

use std::fs::{self, File};
use std::io::{self, BufWriter, Write};
use std::path::{Path, PathBuf};

pub struct Options {
    pub seed: u64,
    pub count: usize,
    pub records: usize,
    pub edition: u64,
    pub applies: bool,
    dir: Option<String>,
    stream: Option<String>,
}

impl Options {
    pub fn parse(arguments: &[String]) -> Result<Options, String> {
        let mut options = Options {
            seed: 1,
            count: 1500,
            records: 5000,
            edition: 4,
            applies: false,
            dir: None,
            stream: None,
        };
        let mut rest = arguments.iter();
        while let Some(name) = rest.next() {
            if name == "--applies" {
                options.applies = true;
                continue;
            }
            let value = rest.next().ok_or_else(|| format!("{} needs a value", name))?;
            let number = || value.parse::<u64>().map_err(|_| format!("{} is not a number", value));
            match name.as_str() {
                "--seed" => options.seed = number()?,
                "--count" => options.count = number()? as usize,
                "--records" => options.records = number()? as usize,
                "--edition" => options.edition = number()?,
                "--dir" => options.dir = Some(value.clone()),
                "--stream" => options.stream = Some(value.clone()),
                _ => return Err(format!("{} is not an option", name)),
            }
        }
        if options.records > u32::MAX as usize {
            return Err(format!("a night has at most {} records", u32::MAX));
        }
        Ok(options)
    }

    /// The directory for files that have names.
    pub fn directory(&self) -> Result<PathBuf, String> {
        let dir = self.dir.as_ref().ok_or("give --dir")?;
        fs::create_dir_all(dir).map_err(|error| format!("{}: {}", dir, error))?;
        Ok(Path::new(dir).to_path_buf())
    }

    pub fn output(&self) -> Result<Output, String> {
        match (&self.dir, &self.stream) {
            (Some(_), None) => Ok(Output::Dir(self.directory()?)),
            (None, Some(name)) if name == "-" => {
                Ok(Output::Stream(Box::new(BufWriter::new(io::stdout()))))
            }
            (None, Some(name)) => {
                let file = File::create(name).map_err(|error| format!("{}: {}", name, error))?;
                Ok(Output::Stream(Box::new(BufWriter::new(file))))
            }
            _ => Err("give either --dir or --stream".to_string()),
        }
    }

    /// Where the counts go, out of the way of a stream on standard output.
    pub fn report(&self) -> Box<dyn Write> {
        if self.stream.as_deref() == Some("-") {
            Box::new(io::stderr())
        } else {
            Box::new(io::stdout())
        }
    }
}

pub enum Output {
    Dir(PathBuf),
    Stream(Box<dyn Write>),
}

impl Output {
    pub fn put(&mut self, index: usize, file: &[u8]) -> io::Result<()> {
        match self {
            Output::Dir(dir) => fs::write(dir.join(format!("{:05}.night", index)), file),
            Output::Stream(out) => {
                out.write_all(&(file.len() as u32).to_be_bytes())?;
                out.write_all(file)
            }
        }
    }

    pub fn finish(self) -> io::Result<()> {
        match self {
            Output::Dir(_) => Ok(()),
            Output::Stream(mut out) => out.flush(),
        }
    }
}

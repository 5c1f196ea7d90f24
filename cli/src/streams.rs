//! `streams`: both streams to files, byte for byte. An output is whole or not there, and it is never an input.

use crate::check;
use crate::input::{is_standard, reason};
use crate::open::open;
use crate::out::Out;
use crate::plain;
use crate::status::{Failure, Status};
use crate::words::Options;
use std::ffi::{OsStr, OsString};
use std::fs::{self, File, OpenOptions};
use std::io::{self, Write};
use std::os::unix::fs::MetadataExt;
use std::path::{Path, PathBuf};

/// A file to be written: its place, and the file beside it that is renamed once it is whole.
struct Output {
    place: PathBuf,
    beside: PathBuf,
    file: File,
}

/// Where both streams go; at least one of them is named.
pub struct Places<'a> {
    pub frames: Option<&'a OsString>,
    pub diags: Option<&'a OsString>,
}

pub fn streams(out: &mut Out, file: &OsStr, full: bool, places: Places, options: &Options) -> io::Result<Status> {
    let opened = match open(out, file, full, options)? {
        Ok(opened) => opened,
        Err(status) => return Ok(status),
    };
    let frames = places.frames.map(|place| (place.as_os_str(), &opened.streams.frames[..]));
    let diags = places.diags.map(|place| (place.as_os_str(), &opened.streams.diags[..]));
    let outputs: Vec<(&OsStr, &[u8])> = frames.into_iter().chain(diags).collect();
    match write_all(file, &outputs) {
        Ok(()) => opened.summary(out, file),
        Err(failure) => check::failed(out, file, &failure, options),
    }
}

fn write_all(input: &OsStr, outputs: &[(&OsStr, &[u8])]) -> Result<(), Failure> {
    let places = outputs.iter().map(|(name, _)| place(input, name)).collect::<Result<Vec<_>, _>>()?;
    if let [one, other] = &places[..] {
        if one == other {
            return Err(Failure::failed("both streams cannot go to one file"));
        }
    }
    let mut whole = Vec::new();
    for (place, (_, bytes)) in places.iter().zip(outputs) {
        whole.push(Output::whole(place, bytes)?);
    }
    whole.into_iter().try_for_each(Output::put)
}

fn blame(place: &Path, error: &io::Error) -> Failure {
    Failure::failed(format!("{}: {}", plain::file_name(place.as_os_str()), reason(error)))
}

/// Where an output goes: nothing or a regular file stands there, links followed, and it is not the input.
fn place(input: &OsStr, name: &OsStr) -> Result<PathBuf, Failure> {
    let given = Path::new(name);
    let about = match fs::metadata(given) {
        Ok(about) => about,
        Err(error) if error.kind() == io::ErrorKind::NotFound && fs::symlink_metadata(given).is_err() => {
            return new_place(given);
        }
        Err(error) => return Err(blame(given, &error)),
    };
    let shown = plain::file_name(name);
    if !about.is_file() {
        return Err(Failure::failed(format!("{shown}: only a file can be written")));
    }
    let same = |of: fs::Metadata| (of.dev(), of.ino()) == (about.dev(), about.ino());
    if !is_standard(input) && fs::metadata(input).is_ok_and(same) {
        return Err(Failure::failed(format!("{shown}: it is the text itself")));
    }
    fs::canonicalize(given).map_err(|error| blame(given, &error))
}

/// A place where nothing stands yet, by the true name of its folder.
fn new_place(given: &Path) -> Result<PathBuf, Failure> {
    let Some(name) = given.file_name() else {
        return Err(Failure::failed(format!("{}: only a file can be written", plain::file_name(given.as_os_str()))));
    };
    let folder = given.parent().filter(|folder| !folder.as_os_str().is_empty()).unwrap_or(Path::new("."));
    let folder = fs::canonicalize(folder).map_err(|error| blame(given, &error))?;
    Ok(folder.join(name))
}

impl Output {
    /// Written whole beside its place; on an error nothing stays there.
    fn whole(place: &Path, bytes: &[u8]) -> Result<Output, Failure> {
        let mut beside = place.as_os_str().to_owned();
        beside.push(format!(".{}.part", std::process::id()));
        let beside = PathBuf::from(beside);
        let opened = OpenOptions::new().write(true).create_new(true).open(&beside);
        let file = opened.map_err(|error| blame(place, &error))?;
        let mut output = Output { place: place.to_owned(), beside, file };
        let written = output.file.write_all(bytes).and_then(|()| output.file.sync_all());
        written.map_err(|error| blame(place, &error)).map(|()| output)
    }

    fn put(self) -> Result<(), Failure> {
        fs::rename(&self.beside, &self.place).map_err(|error| blame(&self.place, &error))
    }
}

/// What was not renamed goes.
impl Drop for Output {
    fn drop(&mut self) {
        let _ = fs::remove_file(&self.beside);
    }
}

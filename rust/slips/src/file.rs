//! Image files and the shape files beside them.
//!
//! An image file holds the bare image, as a chip is dumped. Its shape stands in a text file of the same name with .shape behind it; so a
//! dump is looked at as it came, and an address is a place in the file. Links are followed first: shape file, lock and temporary file
//! all stand beside the real file, whichever of its names is given.
use crate::failure::Failure;
use crate::replace::{Lock, folder, lock, test_replaceable, unwritten, write};
use crate::shape::{Numbers, explained, noted};
use crate::show::{counted, note};
use slipq::{Item, Shape};
use std::fs;
use std::io::{Error, ErrorKind};
use std::path::{Path, PathBuf};

/// An image file in memory.
#[derive(Debug)]
pub struct Stored {
    /// the name that was given
    pub name: PathBuf,
    pub image: Vec<u8>,
    pub shape: Shape,
}

impl Stored {
    /// The payload of an item that was found in this image.
    pub fn payload(&self, item: &Item) -> &[u8] {
        &self.image[item.payload as usize..][..item.length as usize]
    }
}

/// An image file that a command changes. Other runs of the tool wait until it is dropped.
pub struct Held {
    pub stored: Stored,
    /// the image as it was read
    pub before: Vec<u8>,
    real: PathBuf,
    lock: Lock,
}

impl Held {
    /// Writes the file anew, if its image has changed.
    pub fn keep(&self) -> Result<(), Failure> {
        match self.stored.image == self.before {
            true => Ok(()),
            false => write(&self.real, &self.stored.image, &self.lock),
        }
    }
}

/// Reads an image file. Its shape passes the check.
pub fn read(name: &Path, given: Numbers) -> Result<Stored, Failure> {
    // what has no real name, as a pipe of the shell, is read as it is given
    let real = fs::canonicalize(name).unwrap_or_else(|_| name.to_owned());
    read_real(name, &real, given, read_shape_file(&real)?)
}

/// Reads an image file for a command that will change it. Without `force` no option may contradict the shape file.
pub fn hold(name: &Path, given: Numbers, force: bool) -> Result<Held, Failure> {
    let real = fs::canonicalize(name).map_err(|error| unread(name, error))?;
    let lock = lock(folder(&real))?;
    test_replaceable(&real).map_err(|error| unwritten(name, error))?;
    let noted = read_shape_file(&real)?;
    if let Some(noted) = noted.filter(|_| !force) {
        test_agreement(named(name, &real), given, noted)?;
    }
    let stored = read_real(name, &real, given, noted)?;
    Ok(Held {
        before: stored.image.clone(),
        stored,
        real,
        lock,
    })
}

/// The name beside which the shape file stands: the one that was given, unless that is a link.
fn named<'a>(name: &'a Path, real: &'a Path) -> &'a Path {
    if name.is_symlink() { real } else { name }
}

fn test_agreement(file: &Path, given: Numbers, noted: Numbers) -> Result<(), Failure> {
    let Some((number, given, noted)) = Numbers::contradiction(given, noted) else {
        return Ok(());
    };
    Err(Failure::Contradicts(format!(
        "--{number} {given} contradicts {}, which says {noted}: leave it out, or give --force",
        shape_file(file).display()
    )))
}

fn read_real(
    name: &Path,
    real: &Path,
    given: Numbers,
    noted: Option<Numbers>,
) -> Result<Stored, Failure> {
    let image = fs::read(real).map_err(|error| unread(name, error))?;
    let known = noted.unwrap_or_default();
    let shape = Numbers::shape(given, known, image.len()).map_err(|says| {
        let beside = match noted {
            None => format!(", or write {}", shape_file(named(name, real)).display()),
            Some(_) => String::new(),
        };
        Failure::NoShape(format!("{}: {says}{beside}", name.display()))
    })?;
    if let Err(error) = shape.check(image.len()) {
        let says = explained(shape, error, image.len());
        return Err(Failure::Shape(shape, error, says));
    }
    let behind = image.len() - shape.end as usize;
    if behind > 0 && Numbers::known_pages(given, known).is_none() {
        note(&format!(
            "{}: the last {} are no whole page of {} and are left out; --pages says how many pages there are",
            name.display(),
            counted(behind, "byte", "bytes"),
            shape.page
        ));
    }
    Ok(Stored {
        name: name.to_owned(),
        image,
        shape,
    })
}

/// Makes an image file whose bytes are all FF, and its shape file.
pub fn create(name: &Path, given: Numbers) -> Result<Shape, Failure> {
    for (name, number) in [
        ("page", given.page),
        ("word", given.word),
        ("pages", given.pages),
    ] {
        if number.is_none() {
            return Err(Failure::Usage(format!("--{name} is missing")));
        }
    }
    let shape = Numbers::shape(given, Numbers::default(), 0).map_err(Failure::Usage)?;
    let length = shape.end as usize;
    shape
        .check(length)
        .map_err(|error| Failure::Shape(shape, error, explained(shape, error, length)))?;
    let lock = lock(folder(name))?;
    if fs::symlink_metadata(name).is_ok() {
        let name = name.display();
        return Err(Failure::Exists(format!("{name} is there already")));
    }
    // a shape file whose image is gone may be written anew, another file may not
    read_shape_file(name)?;
    write(&shape_file(name), noted(shape).as_bytes(), &lock)?;
    write(name, &vec![0xff; length], &lock)?;
    Ok(shape)
}

pub fn shape_file(path: &Path) -> PathBuf {
    let mut name = path.as_os_str().to_owned();
    name.push(".shape");
    name.into()
}

/// The numbers beside an image file; none where it has no shape file.
pub fn read_shape_file(path: &Path) -> Result<Option<Numbers>, Failure> {
    let path = shape_file(path);
    match fs::read_to_string(&path) {
        Err(error) if error.kind() == ErrorKind::NotFound => Ok(None),
        Err(error) => Err(Failure::NoShape(format!("{}: {error}", path.display()))),
        Ok(text) => match Numbers::of_text(&text) {
            Ok(numbers) => Ok(Some(numbers)),
            Err(says) => Err(Failure::NoShape(format!("{}: {says}", path.display()))),
        },
    }
}

pub fn unread(name: &Path, error: Error) -> Failure {
    Failure::Read(format!("{}: {error}", name.display()))
}

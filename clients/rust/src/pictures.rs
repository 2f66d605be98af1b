//! Pictures of what a display shows to unchanged libdrm programs, on Linux.
//!
//! ```no_run
//! use zirkoshe::pictures::Display;
//!
//! # fn main() -> std::io::Result<()> {
//! let picture = Display::from_environment()?.screenshot(1)?;
//! assert_eq!(picture.pixel(0, 0), [0, 0, 0]);
//! picture.expect("kept.ppm", 0)?;
//! # Ok(())
//! # }
//! ```
//!
//! Kept pictures are files of the format PPM, which has no compression: `P6`, the size, 255, and
//! red, green and blue of each pixel.

use std::env;
use std::fs;
use std::io::{self, BufRead, BufReader, ErrorKind, Read, Write};
use std::os::unix::net::UnixStream;
use std::path::{Path, PathBuf};
use std::time::Duration;

/// How long the display may take for each part of an answer.
const MOST_WAIT: Duration = Duration::from_secs(30);
/// The bytes of a pixel.
const PIXEL: usize = 3;
/// How many pixels a picture may have.
const MOST_PIXELS: usize = 1 << 28;

/// A display, which has what programs show.
#[derive(Debug, Clone)]
pub struct Display {
    control: PathBuf,
}

/// A picture, with red, green and blue of each pixel.
#[derive(Debug, Clone, PartialEq, Eq)]
pub struct Picture {
    width: usize,
    height: usize,
    pixels: Vec<u8>,
}

fn invalid(text: impl Into<String>) -> io::Error {
    io::Error::new(ErrorKind::InvalidData, text.into())
}

/// Returns the number after a name in an answer.
fn number_after(answer: &str, name: &str) -> Option<usize> {
    let (_, rest) = answer.split_once(&format!("\"{name}\": "))?;
    let end = rest.find(|letter: char| !letter.is_ascii_digit())?;
    rest[..end].parse().ok()
}

impl Display {
    /// Returns the display with this socket.
    pub fn at(socket: impl AsRef<Path>) -> Self {
        let mut control = socket.as_ref().as_os_str().to_os_string();
        control.push(".control");
        Display {
            control: control.into(),
        }
    }

    /// Returns the display that DRM_SERVER_DISPLAY names.
    ///
    /// # Errors
    ///
    /// `NotFound` if there is no such variable.
    pub fn from_environment() -> io::Result<Self> {
        match env::var_os("DRM_SERVER_DISPLAY") {
            Some(socket) => Ok(Display::at(socket)),
            None => Err(io::Error::new(
                ErrorKind::NotFound,
                "DRM_SERVER_DISPLAY is not set",
            )),
        }
    }

    /// Returns a picture of what a CRTC shows: its planes in their order.
    ///
    /// # Errors
    ///
    /// The display's errno, as `NotFound` if there is no such CRTC, `InvalidData` if the answer is
    /// none, and other errors of the connection.
    pub fn screenshot(&self, crtc: u32) -> io::Result<Picture> {
        let mut stream = UnixStream::connect(&self.control)?;
        stream.set_read_timeout(Some(MOST_WAIT))?;
        stream.write_all(format!("picture {crtc} 1\n").as_bytes())?;
        let mut answers = BufReader::new(stream);
        let mut answer = String::new();
        answers.read_line(&mut answer)?;
        if let Some(errno) = number_after(&answer, "errno") {
            return Err(io::Error::from_raw_os_error(errno as i32));
        }
        let size = number_after(&answer, "width").zip(number_after(&answer, "height"));
        let (width, height) = size.ok_or_else(|| invalid("the display sent no picture"))?;
        Picture::read_pixels(width, height, &mut answers)
    }
}

impl Picture {
    /// Returns the width in pixels.
    pub fn width(&self) -> usize {
        self.width
    }

    /// Returns the height in pixels.
    pub fn height(&self) -> usize {
        self.height
    }

    /// Returns red, green and blue of a pixel.
    ///
    /// # Panics
    ///
    /// If the pixel is outside.
    pub fn pixel(&self, x: usize, y: usize) -> [u8; PIXEL] {
        assert!(x < self.width && y < self.height, "{x}, {y} is outside");
        let at = PIXEL * (y * self.width + x);
        [self.pixels[at], self.pixels[at + 1], self.pixels[at + 2]]
    }

    fn read_pixels(width: usize, height: usize, from: &mut impl Read) -> io::Result<Self> {
        let count = width.checked_mul(height).filter(|it| *it <= MOST_PIXELS);
        let count = count.ok_or_else(|| invalid("the picture is too large"))?;
        let mut pixels = vec![0; PIXEL * count];
        from.read_exact(&mut pixels)?;
        Ok(Picture {
            width,
            height,
            pixels,
        })
    }

    /// Writes the picture to a PPM file.
    ///
    /// # Errors
    ///
    /// Those of the file.
    pub fn write(&self, path: impl AsRef<Path>) -> io::Result<()> {
        let head = format!("P6\n{} {}\n255\n", self.width, self.height);
        fs::write(path, [head.as_bytes(), &self.pixels].concat())
    }

    /// Reads a picture from a PPM file.
    ///
    /// # Errors
    ///
    /// `InvalidData` if the file is none, and those of the file.
    pub fn read(path: impl AsRef<Path>) -> io::Result<Self> {
        let mut file = BufReader::new(fs::File::open(path)?);
        let mut words = [0; 3];
        let mut head = Vec::new();
        file.by_ref().take(3).read_to_end(&mut head)?;
        if head != b"P6\n" {
            return Err(invalid("it is no PPM file"));
        }
        for (place, end) in [b' ', b'\n', b'\n'].into_iter().enumerate() {
            let mut word = Vec::new();
            file.by_ref().take(12).read_until(end, &mut word)?;
            let text = String::from_utf8_lossy(&word);
            let number = text.trim_end().parse();
            words[place] = number.map_err(|_| invalid("it is no PPM file"))?;
        }
        if words[2] != 255 {
            return Err(invalid("it has no 8 bits a channel"));
        }
        Picture::read_pixels(words[0], words[1], &mut file)
    }

    /// Returns how many pixels differ by more than the tolerance, and a picture with these in
    /// white. The other one has the same size.
    fn compare(&self, other: &Picture, tolerance: u8) -> (usize, Picture) {
        let mut marks = Picture {
            pixels: vec![0; self.pixels.len()],
            ..*self
        };
        let mut count = 0;
        let both = self.pixels.chunks(PIXEL).zip(other.pixels.chunks(PIXEL));
        for (mark, (one, two)) in marks.pixels.chunks_mut(PIXEL).zip(both) {
            if one.iter().zip(two).any(|(a, b)| a.abs_diff(*b) > tolerance) {
                mark.fill(255);
                count += 1;
            }
        }
        (count, marks)
    }

    /// Writes the picture next to a kept one, and returns its path.
    fn keep(&self, kept: &Path, what: &str) -> io::Result<String> {
        let path = kept.with_extension(format!("{what}.ppm"));
        self.write(&path)?;
        Ok(path.display().to_string())
    }

    /// Compares the picture with a kept one, of which each colour may differ by the tolerance.
    ///
    /// # Errors
    ///
    /// `NotFound` if there is no kept one: then NAME.found.ppm is written. `InvalidData` if they
    /// differ: then NAME.difference.ppm, too, which is white where they differ. And those of files.
    pub fn expect(&self, kept: impl AsRef<Path>, tolerance: u8) -> io::Result<()> {
        let kept = kept.as_ref();
        let wanted = match Picture::read(kept) {
            Err(error) if error.kind() == ErrorKind::NotFound => {
                let found = self.keep(kept, "found")?;
                let text = format!("there is no {}: rename {found}", kept.display());
                return Err(io::Error::new(ErrorKind::NotFound, text));
            }
            read => read?,
        };
        if (self.width, self.height) != (wanted.width, wanted.height) {
            let found = self.keep(kept, "found")?;
            return Err(invalid(format!("{found} has another size")));
        }
        let (count, marks) = self.compare(&wanted, tolerance);
        if count > 0 {
            let found = self.keep(kept, "found")?;
            let marked = marks.keep(kept, "difference")?;
            let text = format!("{found} differs in {count} pixels: see {marked}");
            return Err(invalid(text));
        }
        Ok(())
    }
}

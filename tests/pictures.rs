//! Pictures in Rust: pictures CRTC KEPT TOLERANCE. Prints what the picture has, and how it compares.
#[path = "../clients/rust/src/lib.rs"]
mod zirkoshe;

use zirkoshe::pictures::Display;

fn main() {
    let words: Vec<String> = std::env::args().collect();
    let display = Display::from_environment().unwrap();
    match display.screenshot(words[1].parse().unwrap()) {
        Err(error) => println!("taken -{}", error.raw_os_error().unwrap_or(0)),
        Ok(picture) => {
            println!("taken 0");
            let [red, green, blue] = picture.pixel(0, 0);
            let (width, height) = (picture.width(), picture.height());
            println!("size {width} {height}, first {red} {green} {blue}");
            match picture.expect(&words[2], words[3].parse().unwrap()) {
                Ok(()) => println!("compared 0"),
                Err(error) if error.kind() == std::io::ErrorKind::NotFound => {
                    println!("compared -2")
                }
                Err(error) => {
                    eprintln!("{error}");
                    println!("compared 1")
                }
            }
        }
    }
}

//! For tests: a program in Rust that makes each system call of the device itself, as `rustix` does. It writes a line for each thing
//! that it found.

use std::arch::asm;
use std::ffi::CStr;

const OPENAT: usize = 257;
const IOCTL: usize = 16;
const FROM_THE_WORKING_DIRECTORY: isize = -100;
const READ_AND_WRITE: usize = 2;

const VERSION: usize = request::<Version>(0x00);
const GET_RESOURCES: usize = request::<Resources>(0xa0);
const SET_CRTC: usize = request::<Crtc>(0xa2);

/// `struct drm_version`
#[repr(C)]
#[derive(Default)]
struct Version {
    numbers: [i32; 3],
    name_length: usize,
    name: usize,
    date_length: usize,
    date: usize,
    description_length: usize,
    description: usize,
}

/// `struct drm_mode_card_res`
#[repr(C)]
#[derive(Default)]
struct Resources {
    lists: [u64; 4],
    framebuffers: u32,
    crtcs: u32,
    connectors: u32,
    encoders: u32,
    sizes: [u32; 4],
}

/// `struct drm_mode_crtc`
#[repr(C)]
struct Crtc {
    connectors: u64,
    connector_count: u32,
    crtc: u32,
    framebuffer: u32,
    corner: [u32; 2],
    gamma_size: u32,
    mode_valid: u32,
    mode: [u32; 17],
}

/// The request of DRM with this number, which reads and writes a struct.
const fn request<Argument>(number: usize) -> usize {
    3 << 30 | std::mem::size_of::<Argument>() << 16 | (b'd' as usize) << 8 | number
}

/// Makes a system call of three words.
///
/// # Errors
///
/// The kernel's errno.
fn call(number: usize, words: [usize; 3]) -> Result<usize, isize> {
    let result: isize;
    // SAFETY: the words are those of a call that reads and writes what they lead to, which lives until it returns
    unsafe {
        asm!(
            "syscall",
            inlateout("rax") number as isize => result,
            in("rdi") words[0],
            in("rsi") words[1],
            in("rdx") words[2],
            lateout("rcx") _,
            lateout("r11") _,
        );
    }
    usize::try_from(result).map_err(|_| -result)
}

fn open(path: &CStr) -> Result<usize, isize> {
    call(
        OPENAT,
        [
            FROM_THE_WORKING_DIRECTORY as usize,
            path.as_ptr() as usize,
            READ_AND_WRITE,
        ],
    )
}

fn ask<Argument>(node: usize, request: usize, argument: &mut Argument) -> Result<usize, isize> {
    call(
        IOCTL,
        [node, request, std::ptr::from_mut(argument) as usize],
    )
}

fn main() -> Result<(), isize> {
    let card = open(c"/dev/dri/card0")?;
    let mut name = [0u8; 8];
    let mut version = Version {
        name_length: name.len(),
        name: name.as_mut_ptr() as usize,
        ..Version::default()
    };
    ask(card, VERSION, &mut version)?;
    println!("driver {}", String::from_utf8_lossy(&name));
    let mut resources = Resources::default();
    ask(card, GET_RESOURCES, &mut resources)?;
    println!(
        "{} CRTCs, {} connectors",
        resources.crtcs, resources.connectors
    );
    let other = open(c"/dev/dri/card0")?;
    let mut dark = Crtc {
        connectors: 0,
        connector_count: 0,
        crtc: 1,
        framebuffer: 0,
        corner: [0, 0],
        gamma_size: 0,
        mode_valid: 0,
        mode: [0; 17],
    };
    println!("the master darkens: {:?}", ask(card, SET_CRTC, &mut dark));
    println!(
        "another client darkens: {:?}",
        ask(other, SET_CRTC, &mut dark)
    );
    println!("another card: {:?}", open(c"/dev/dri/card1"));
    Ok(())
}

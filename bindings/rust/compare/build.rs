//! Has the published text of mctp-estack 0.1.0 compiled from the folder that PULEVAGO_RUST_TEXT names, else from
//! ../shared/docs/src. A folder that is not absolute begins at the repository's root. `serial.rs` is compiled where it stands,
//! unchanged. `i2c.rs` and `usb.rs` are cut to the items that the port takes, each item's text unchanged.

use std::env;
use std::fs;
use std::path::{Path, PathBuf};
use std::process::exit;

const FOLDER_VARIABLE: &str = "PULEVAGO_RUST_TEXT";
const USUAL_FOLDER: &str = "../shared/docs/src";

/// The items taken of `i2c.rs`, by how their first lines begin.
const I2C_CONSTANTS: [&str; 4] = [
    "pub const MCTP_I2C_COMMAND_CODE: u8 =",
    "const MCTP_I2C_HEADER: usize =",
    "pub const MCTP_I2C_MAXMTU: usize =",
    "type MctpI2cHeader =",
];
const I2C_STRUCT: &str = "pub struct MctpI2cEncap {";
const I2C_METHODS: [&str; 3] = [
    "    pub fn new(",
    "    pub fn decode<'f>(",
    "    pub fn encode<'f>(",
];

/// The items taken of `usb.rs`. Of its struct that is the name alone: neither method looks at it.
const USB_CONSTANTS: [&str; 1] = ["const HDR_LEN: usize ="];
const USB_STRUCT: &str = "pub struct MctpUsbHandler;\n";
const USB_METHODS: [&str; 2] = ["    pub fn decode(", "    pub fn header("];

fn main() {
    let folder = folder();
    println!("cargo:rerun-if-changed=build.rs");
    println!("cargo:rerun-if-env-changed={FOLDER_VARIABLE}");
    let serial = file(&folder, "serial.rs");
    let i2c = Text::of(file(&folder, "i2c.rs"));
    let usb = Text::of(file(&folder, "usb.rs"));

    let built = PathBuf::from(setting("OUT_DIR"));
    let i2c_cut = built.join("i2c.rs");
    let usb_cut = built.join("usb.rs");
    write(&i2c_cut, &cut_i2c(&i2c));
    write(&usb_cut, &cut_usb(&usb));
    let modules = module("serial", &serial) + &module("i2c", &i2c_cut) + &module("usb", &usb_cut);
    write(&built.join("published.rs"), &modules);
}

fn folder() -> PathBuf {
    let package = PathBuf::from(setting("CARGO_MANIFEST_DIR"));
    let root = package.ancestors().nth(3).unwrap_or(&package);
    root.join(env::var_os(FOLDER_VARIABLE).unwrap_or(USUAL_FOLDER.into()))
}

/// The file's absolute path; cargo builds anew where it changes.
fn file(folder: &Path, name: &str) -> PathBuf {
    let path = folder.join(name);
    println!("cargo:rerun-if-changed={}", path.display());
    path.canonicalize().unwrap_or_else(|_| {
        stop(&format!(
            "there is no {}: name the folder of the published text in {FOLDER_VARIABLE}",
            path.display()
        ))
    })
}

fn module(name: &str, path: &Path) -> String {
    format!(
        "#[path = {:?}]\n#[allow(dead_code)]\npub mod {name};\n",
        path
    )
}

fn cut_i2c(text: &Text) -> String {
    let imports = "use crate::fmt::trace;\nuse mctp::{Error, Result};\n";
    let constants = I2C_CONSTANTS.map(|start| text.statement(start)).concat();
    let owner = text.block(I2C_STRUCT);
    let methods = text.methods("MctpI2cEncap", &I2C_METHODS);
    [imports, &constants, &owner, &methods].join("\n")
}

fn cut_usb(text: &Text) -> String {
    let imports = "use crate::fmt::{debug, trace};\nuse mctp::{Error, Result};\n";
    let constants = USB_CONSTANTS.map(|start| text.statement(start)).concat();
    let methods = text.methods("MctpUsbHandler", &USB_METHODS);
    [imports, &constants, USB_STRUCT, &methods].join("\n")
}

/// A published file, or a block of one, to be cut.
struct Text {
    path: PathBuf,
    lines: Vec<String>,
}

impl Text {
    fn of(path: PathBuf) -> Text {
        match fs::read_to_string(&path) {
            Ok(text) => Text::lines_of(path, &text),
            Err(why) => stop(&format!("{}: {why}", path.display())),
        }
    }

    fn lines_of(path: PathBuf, text: &str) -> Text {
        let lines = text.lines().map(String::from).collect();
        Text { path, lines }
    }

    /// The constant or type whose first line begins so, to its semicolon.
    fn statement(&self, start: &str) -> String {
        self.item(start, |line| line.ends_with(';'))
    }

    /// The struct, function or block of methods whose first line begins so, to the brace that closes it at the same indent.
    fn block(&self, start: &str) -> String {
        let indent = &start[..start.len() - start.trim_start().len()];
        let closing = format!("{indent}}}");
        self.item(start, |line| line == closing)
    }

    /// The named methods of a type, in a block of their own.
    fn methods(&self, owner: &str, starts: &[&str]) -> String {
        let first_line = format!("impl {owner} {{");
        let all = Text::lines_of(self.path.clone(), &self.block(&first_line));
        let taken: Vec<String> = starts.iter().map(|start| all.block(start)).collect();
        format!("{first_line}\n{}}}\n", taken.join("\n"))
    }

    /// The lines from the one that begins so to the first that ends the item.
    fn item(&self, start: &str, ends: impl Fn(&str) -> bool) -> String {
        let first = self.line_of(start);
        match self.lines[first..].iter().position(|line| ends(line)) {
            Some(length) => self.lines[first..=first + length].join("\n") + "\n",
            None => self.stop_at(start, "has no end"),
        }
    }

    /// The one line that begins so.
    fn line_of(&self, start: &str) -> usize {
        let begins = |at: &usize| self.lines[*at].starts_with(start);
        let mut found = (0..self.lines.len()).filter(begins);
        match (found.next(), found.next()) {
            (Some(at), None) => at,
            (None, _) => self.stop_at(start, "is not there"),
            (Some(_), Some(_)) => self.stop_at(start, "is there twice"),
        }
    }

    fn stop_at(&self, start: &str, why: &str) -> ! {
        stop(&format!(
            "{}: the item `{}` {why}",
            self.path.display(),
            start.trim()
        ))
    }
}

fn write(path: &Path, text: &str) {
    fs::write(path, text).unwrap_or_else(|why| stop(&format!("{}: {why}", path.display())));
}

/// A variable that cargo sets for every build script.
fn setting(name: &str) -> String {
    env::var(name).unwrap_or_else(|_| stop(&format!("cargo did not set {name}")))
}

fn stop(why: &str) -> ! {
    eprintln!("pulevago-compare: {why}");
    exit(1)
}

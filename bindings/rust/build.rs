//! Links the archive that `TINKORABA_ARCHIVE` names: `bash tools/native-staticlib gateway_c target/libgateway.a` leaves it there. An archive that can't serve is
//! refused here, in one line, before a linker writes pages about it.
use std::path::{Path, PathBuf};
use std::{env, fs, process, str};

/// What stands for the archive where none is named. Whether this is `cargo doc`, `cargo check` or a build isn't known here, and the first two need no
/// archive; so a library is asked for that can't be there, and rustc, which looks for it only when it writes the crate, says its name in one line.
const NONE: &str = "libgateway.a (TINKORABA_ARCHIVE must name it, bindings/README.md says how it is built)";

/// The exports that the crate calls.
const RAW: &str = include_str!("src/raw.rs");

fn main() {
    // Cargo shows all that a script printed that failed: so nothing is printed before it is known.
    let named = env::var_os("TINKORABA_ARCHIVE").filter(|name| !name.is_empty()).map(PathBuf::from);
    let told = named.map_or_else(|| Ok(format!("cargo:rustc-link-lib=static:+verbatim={NONE}")), |named| linked(&named));
    match told {
        Ok(lines) => println!("cargo:rerun-if-env-changed=TINKORABA_ARCHIVE\n{lines}"),
        Err(why) => {
            eprintln!("error: tinkoraba: {why}; see bindings/README.md");
            process::exit(1);
        }
    }
}

/// What cargo is told of an archive that serves, or why it doesn't.
fn linked(named: &Path) -> Result<String, String> {
    let shown = named.display();
    let read = named.canonicalize().and_then(|archive| fs::read(&archive).map(|bytes| (archive, bytes)));
    let (archive, bytes) = read.map_err(|error| format!("TINKORABA_ARCHIVE names {shown}, which can't be read: {error}"))?;
    let members = members(&bytes).ok_or_else(|| format!("TINKORABA_ARCHIVE names {shown}, which is no archive, or a cut one"))?;
    let object = members.iter().find_map(|(_, content)| content.get(..20).filter(|start| start.starts_with(b"\x7fELF")));
    fits(object.ok_or_else(|| format!("the archive {shown} has no object for Linux"))?)?;
    if let Some(lacking) = lacking(&members) {
        return Err(format!("the archive {shown} lacks {lacking}: it is another library, or one of another version"));
    }
    let (folder, name) = (archive.parent().ok_or("a file without a folder")?, archive.file_name().ok_or("a file without a name")?);
    Ok(format!(
        "cargo:rerun-if-changed={}\ncargo:rustc-link-search=native={}\ncargo:rustc-link-lib=static:+verbatim={}",
        archive.display(),
        folder.display(),
        name.to_string_lossy()
    ))
}

/// A member's name, filled with spaces, and its content.
type Member<'a> = (&'a [u8], &'a [u8]);

/// The members of an `ar` archive. Each has a header of 60 bytes with its size in decimal, and starts at an even place.
fn members(archive: &[u8]) -> Option<Vec<Member<'_>>> {
    let (mut rest, mut members) = (archive.strip_prefix(b"!<arch>\n")?, Vec::new());
    while !rest.is_empty() {
        let (header, behind) = (rest.get(..60)?, &rest[60..]);
        let size: usize = str::from_utf8(&header[48..58]).ok()?.trim_end().parse().ok()?;
        members.push((&header[..16], behind.get(..size)?));
        rest = behind.get(size + size % 2..).unwrap_or(&[]);
    }
    Some(members)
}

/// Whether an object is for the target. An ELF header names the processor, its width and its byte order; the system is the only one that there are
/// archives for.
fn fits(object: &[u8]) -> Result<(), String> {
    let target = |key: &str| env::var(format!("CARGO_CFG_TARGET_{key}")).unwrap_or_default();
    let (processor, shown) = match (object[4], object[5], object[18], object[19]) {
        (2, 1, 62, 0) => ("x86_64", "x86-64 Linux"),
        (2, 1, 183, 0) => ("aarch64", "aarch64 Linux"),
        _ => ("", "a processor that Tinkoraba is not built for"),
    };
    let asked = [target("ARCH"), target("OS"), target("POINTER_WIDTH"), target("ENDIAN")];
    if asked != [processor, "linux", "64", "little"] {
        return Err(format!("the archive is for {shown}, and this target is {}", env::var("TARGET").unwrap_or_default()));
    }
    Ok(())
}

/// An export that the crate calls and that the archive's index lacks. The index, member `/`, is a count of four bytes, as many places of four bytes, and
/// the names, each with a zero behind it. Without one the linker has the word.
fn lacking(members: &[Member<'_>]) -> Option<&'static str> {
    let (_, index) = members.iter().find(|(name, _)| *name == b"/               ")?;
    let count = u32::from_be_bytes(index.get(..4)?.try_into().ok()?) as usize;
    let names: Vec<&[u8]> = index.get(4 + 4 * count..)?.split(|byte| *byte == 0).collect();
    let mut called = RAW.split("pub fn ").skip(1).filter_map(|text| text.split('(').next());
    called.find(|export| !names.contains(&export.as_bytes()))
}

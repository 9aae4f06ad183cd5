//! The source's declarations, as C and as Rust write them.

use crate::source::{inner, Function, Struct, Typed};

/// `SaveReply` as `save_reply`.
pub fn snake(name: &str) -> String {
    let mut out = String::new();
    for c in name.chars() {
        if c.is_uppercase() && !out.is_empty() {
            out.push('_');
        }
        out.extend(c.to_lowercase());
    }
    out
}

fn type_in_c(kind: &str) -> String {
    match kind {
        "u8" => "uint8_t".to_string(),
        "u16" => "uint16_t".to_string(),
        "u32" => "uint32_t".to_string(),
        "u64" => "uint64_t".to_string(),
        "usize" => "size_t".to_string(),
        "bool" => "bool".to_string(),
        name => format!("milchkompass_{}", snake(name)),
    }
}

fn join(items: &[Typed], with: &str, write: impl Fn(&Typed) -> String) -> String {
    items.iter().map(write).collect::<Vec<_>>().join(with)
}

pub fn struct_in_c(declared: &Struct) -> String {
    let name = type_in_c(&declared.name);
    let fields = join(&declared.fields, " ", |(name, kind)| {
        let of = type_in_c(inner(kind));
        match kind.split_once("::") {
            Some((_, limit)) => format!("{of} {name}[MILCHKOMPASS_{limit};"),
            None => format!("{of} {name};"),
        }
    });
    format!("typedef struct {name} {{ {fields} }} {name};")
}

pub fn struct_in_rust(declared: &Struct) -> String {
    let fields = join(&declared.fields, ", ", |(name, kind)| {
        let kind = match kind.split_once("::") {
            Some((of, limit)) => format!("{}; {limit}", of.split(';').next().unwrap_or(of)),
            None => kind.clone(),
        };
        format!("pub {name}: {kind}")
    });
    format!("pub struct {} {{ {fields} }}", declared.name)
}

/// The size and the alignment of a type.
fn layout(structs: &[Struct], kind: &str) -> (usize, usize) {
    let (size, alignment) = match inner(kind) {
        "u8" | "bool" => (1, 1),
        "u16" => (2, 2),
        "u32" => (4, 4),
        "u64" | "usize" => (8, 8),
        name => {
            let declared = structs.iter().find(|s| s.name == name).expect(name);
            let (size, alignment, _) = placed(structs, declared);
            (size, alignment)
        }
    };
    let times = match kind.split_once("::") {
        Some((_, "TASKS]")) => 16,
        Some((_, "SCREENS]")) => 32,
        Some((_, "PANELS]" | "STEPS]")) => 8,
        Some((_, limit)) => panic!("{limit}"),
        None => 1,
    };
    (times * size, alignment)
}

/// A struct's size, its alignment, and the place and the size of each field.
fn placed(structs: &[Struct], declared: &Struct) -> (usize, usize, Vec<(usize, usize)>) {
    let (mut end, mut widest, mut places) = (0usize, 1, Vec::new());
    for (_, kind) in &declared.fields {
        let (size, alignment) = layout(structs, kind);
        let place = end.next_multiple_of(alignment);
        places.push((place, size));
        end = place + size;
        widest = widest.max(alignment);
    }
    (end.next_multiple_of(widest), widest, places)
}

/// A struct's lines in bindings/abi.
pub fn struct_in_row(structs: &[Struct], declared: &Struct) -> Vec<String> {
    let name = type_in_c(&declared.name);
    let (size, _, places) = placed(structs, declared);
    let mut lines = vec![format!("SIZE({name}, {size});")];
    for ((field, _), (place, size)) in declared.fields.iter().zip(places) {
        lines.push(format!("FIELD({name}, {field}, {place}, {size});"));
    }
    lines
}

pub fn function_in_c(function: &Function) -> String {
    let parameters = join(&function.parameters, ", ", |(name, kind)| {
        let of = type_in_c(inner(kind));
        match kind.as_str() {
            "&[u8]" => format!("const {of} *{name}, size_t {name}_length"),
            "&mut [u8]" => format!("{of} *{name}, size_t {name}_length"),
            _ if kind.starts_with("&mut ") => format!("{of} *{name}"),
            _ if kind.starts_with('&') => format!("const {of} *{name}"),
            _ => format!("{of} {name}"),
        }
    });
    let parameters = if parameters.is_empty() {
        "void".to_string()
    } else {
        parameters
    };
    let result = type_in_c(&function.result);
    format!("{result} {}({parameters});", function.name)
}

pub fn function_in_rust(function: &Function) -> String {
    let parameters = join(&function.parameters, ", ", |(name, kind)| {
        let of = inner(kind);
        match kind.as_str() {
            "&[u8]" => format!("{name}: *const {of}, {name}_length: usize"),
            "&mut [u8]" => format!("{name}: *mut {of}, {name}_length: usize"),
            _ if kind.starts_with("&mut ") => format!("{name}: *mut {of}"),
            _ if kind.starts_with('&') => format!("{name}: *const {of}"),
            _ => format!("{name}: {of}"),
        }
    });
    format!("fn {}({parameters}) -> {};", function.name, function.result)
}

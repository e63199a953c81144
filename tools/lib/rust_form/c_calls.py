"""C's calls beside Rust's: a slice crosses as a pointer and a length, and the allocator doesn't cross."""
import re

CALL = re.compile(r'#\[unsafe\(no_mangle\)\]\npub extern "C" fn (\w+)\(([^)]*)\)(\s*->\s*\w+)?')
SLICE = re.compile(r"&(mut )?\[(.+)\]")


def crossing(parameter):
    """What C passes for a parameter, and what the call is given."""
    word, kind = (it.strip() for it in parameter.split(":", 1))
    if kind == "Global":
        return [], "Global"
    found = SLICE.fullmatch(kind)
    if not found:
        return [f"{word}: {kind}"], word
    is_changed = bool(found[1])
    pointer = f"{word}: *{'mut' if is_changed else 'const'} {found[2]}"
    made = f"core::slice::from_raw_parts{'_mut' if is_changed else ''}({word}, {word}_length)"
    return [pointer, f"{word}_length: usize"], made


def call_for_c(name, parameters, answer):
    pairs = [crossing(it) for it in parameters.split(",") if it.strip()]
    taken = ", ".join(it for outer, _ in pairs for it in outer)
    given = ", ".join(inner for _, inner in pairs)
    return f"""
/// `{name}` for C.
///
/// # Safety
///
/// Each pointer is as the header says.
#[allow(unused_unsafe)]
#[unsafe(export_name = "{name}")]
pub unsafe extern "C" fn {name}_for_c({taken}){answer} {{
    unsafe {{ {name}({given}) }}
}}
"""


def with_c_calls(text):
    """A file's calls as Rust's, and after them one for C of each."""
    for_c = "".join(call_for_c(*it) for it in CALL.findall(text))
    return CALL.sub(lambda it: f"pub fn {it[1]}({it[2]}){it[3] or ''}", text) + for_c

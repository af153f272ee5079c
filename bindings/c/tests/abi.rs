//! Tests of `library`: types and codes are laid out and numbered there as the lines of `abi.def` say, which the header is compared with too;
//! and each call has the parameters that the header declares.
use crate::code::{Refusal, OK};
use crate::content::Kind;
use crate::exports::*;
use crate::handles::{Out, OwnedSlot, PoolFilling, PoolLent, PoolRef};
use crate::heap::Block;
use crate::lane::{LaneSlot, Stats};
use crate::store::{PoolLimits, PoolSlot};
use pardz::{Census, Shape};
use std::ffi::{c_char, c_void};
use std::mem::{align_of, offset_of, size_of};

/// The size of a field.
fn size_of_field<S, F>(_: impl FnOnce(&S) -> &F) -> usize {
    size_of::<F>()
}

/// The lines of a type and of its fields.
macro_rules! lines {
    ($name:literal is $type:ty: $($field:ident)*) => {
        [
            format!("TYPE({}, {}, {})", $name, size_of::<$type>(), align_of::<$type>()),
            $(format!(
                "FIELD({}, {}, {}, {})",
                $name,
                stringify!($field),
                offset_of!($type, $field),
                size_of_field(|value: &$type| &value.$field)
            ),)*
        ]
    };
}

const CODES: [(&str, u32); 16] = [
    ("OK", OK),
    ("MEMORY", Refusal::Memory as u32),
    ("EMPTY_LANE", Refusal::EmptyLane as u32),
    ("FULL_LANE", Refusal::FullLane as u32),
    ("FULL", Refusal::Full as u32),
    ("FILLINGS", Refusal::Fillings as u32),
    ("NO_FILLING", Refusal::NoFilling as u32),
    ("NO_REFERENCE", Refusal::NoReference as u32),
    ("GONE", Refusal::Gone as u32),
    ("REFERENCES", Refusal::References as u32),
    ("OTHER_POOL", Refusal::OtherPool as u32),
    ("LANES", Refusal::Lanes as u32),
    ("SHAPE", Refusal::Shape as u32),
    ("ROOM", Refusal::Room as u32),
    ("SHARED", Refusal::Shared as u32),
    ("BUSY", Refusal::Busy as u32),
];

#[test]
fn is_as_the_header_says() {
    let mut here = Vec::new();
    here.extend(lines!("pardz_lane" is LaneSlot: at full));
    here.extend(lines!("pardz_pool" is PoolSlot: at full));
    // (One that a lane keeps begins as any other.)
    let held = lines!("pardz_lent" is PoolRef: at len key);
    let [lent, first, lane] = lines!("pardz_lent" is PoolLent: held lane);
    assert_eq!(first, "FIELD(pardz_lent, held, 0, 24)");
    here.extend(
        [lent]
            .into_iter()
            .chain(held.into_iter().skip(1))
            .chain([lane]),
    );
    // (Where an owned reference is, its word is the key.)
    here.extend(
        lines!("pardz_owned" is OwnedSlot: at full).map(|line| line.replace("full", "key")),
    );
    here.extend(
        lines!("pardz_limits" is PoolLimits: places threads first_tag tags last_generation),
    );
    here.extend(lines!("pardz_objects" is Kind: size zeroed empty end context));
    here.extend(lines!("pardz_ref" is PoolRef: at len key));
    here.extend(lines!("pardz_filling" is PoolFilling: at key));
    here.extend(lines!("pardz_shape" is Shape: lanes first_page pages last_generation tag));
    here.extend(
        lines!("pardz_stats" is Stats: shape lane references fillings joined opened places),
    );
    here.extend(lines!("pardz_census" is Census: free unopened filling present marked retired));
    here.extend(lines!("pardz_block" is Block: ok at));
    here.extend(CODES.map(|(name, number)| format!("CODE({name}, {number})")));
    let said = include_str!("abi.def").lines();
    let said: Vec<&str> = said.filter(|line| line.ends_with(')')).collect();
    assert_eq!(here, said);
}

/// A type, as the header writes it.
trait InC {
    const NAME: &'static str;
}

macro_rules! in_c {
    ($($type:ty: $name:literal,)*) => {
        $(impl InC for $type {
            const NAME: &'static str = $name;
        })*
    };
}

in_c! {
    u32: "uint32_t",
    u64: "uint64_t",
    usize: "size_t",
    Out<'_, usize>: "size_t *",
    Out<'_, u64>: "uint64_t *",
    *mut u32: "uint32_t *",
    *const c_void: "const void *",
    Out<'_, *mut u8>: "uint8_t **",
    Out<'_, *const u8>: "const uint8_t **",
    *const c_char: "const char *",
    *mut LaneSlot: "pardz_lane *",
    &mut LaneSlot: "pardz_lane *",
    &mut PoolSlot: "pardz_pool *",
    &PoolSlot: "const pardz_pool *",
    Out<'_, PoolLent>: "pardz_lent *",
    &PoolLent: "const pardz_lent *",
    &Shape: "const pardz_shape *",
    &PoolLimits: "const pardz_limits *",
    &Kind: "const pardz_objects *",
    Out<'_, PoolRef>: "pardz_ref *",
    &mut PoolRef: "pardz_ref *",
    &PoolRef: "const pardz_ref *",
    Out<'_, PoolFilling>: "pardz_filling *",
    &PoolFilling: "const pardz_filling *",
    &mut PoolFilling: "pardz_filling *",
    &mut OwnedSlot: "pardz_owned *",
    &OwnedSlot: "const pardz_owned *",
    Out<'_, Census>: "pardz_census *",
}

/// The types of what a call answers and of its parameters.
trait Prototype {
    fn types(self) -> (&'static str, Vec<&'static str>);
}

macro_rules! prototypes {
    ($(($($parameter:ident)*))*) => {
        $(impl<Answer: InC, $($parameter: InC),*> Prototype for unsafe extern "C" fn($($parameter),*) -> Answer {
            fn types(self) -> (&'static str, Vec<&'static str>) {
                (Answer::NAME, vec![$($parameter::NAME),*])
            }
        })*
    };
}

prototypes! { () (A) (A B) (A B C) (A B C D) (A B C D E) }

/// The prototype of a call, without the names of its parameters.
macro_rules! prototype {
    ($name:ident($($any:tt)*)) => {{
        let (answer, parameters) = ($name as unsafe extern "C" fn($($any),*) -> _).types();
        (stringify!($name).to_string(), answer.to_string(), parameters.join(", "))
    }};
}

/// A prototype of the header, likewise; None for a line that isn't one.
fn declared(line: &str) -> Option<(String, String, String)> {
    let (head, parameters) = line.strip_suffix(");")?.split_once('(')?;
    let (answer, name) = head.split_at(head.rfind("pardz_")?);
    let unnamed = |parameter: &str| {
        let name = parameter.rfind(['*', ' '])?;
        Some(parameter[..=name].trim().to_string())
    };
    let parameters: Option<Vec<String>> = match parameters {
        "void" => Some(Vec::new()),
        _ => parameters.split(", ").map(unnamed).collect(),
    };
    Some((
        name.to_string(),
        answer.trim().to_string(),
        parameters?.join(", "),
    ))
}

#[test]
fn has_the_parameters_that_the_header_declares() {
    let here = [
        prototype!(pardz_version()),
        prototype!(pardz_open_numbered(_ _ _ _)),
        prototype!(pardz_create(_ _)),
        prototype!(pardz_append(_ _ _ _)),
        prototype!(pardz_room(_ _ _ _)),
        prototype!(pardz_wrote(_ _ _)),
        prototype!(pardz_publish(_ _)),
        prototype!(pardz_downgrade(_ _)),
        prototype!(pardz_put(_ _ _ _)),
        prototype!(pardz_leave(_ _)),
        prototype!(pardz_get(_ _ _ _)),
        prototype!(pardz_read(_ _ _ _)),
        prototype!(pardz_release(_ _)),
        prototype!(pardz_clear(_ _)),
        prototype!(pardz_numbers(_ _ _)),
        prototype!(pardz_join(_ _)),
        prototype!(pardz_close(_ _)),
        prototype!(pardz_attach(_ _)),
        prototype!(pardz_share(_ _)),
        prototype!(pardz_unshare(_)),
        prototype!(pardz_pool_put(_ _ _ _ _)),
        prototype!(pardz_pool_get(_ _ _ _)),
        prototype!(pardz_pool_release(_ _)),
        prototype!(pardz_pool_clear(_ _ _)),
        prototype!(pardz_pool_census(_ _)),
        prototype!(pardz_detach(_ _)),
        prototype!(pardz_grow(_ _)),
        prototype!(pardz_open_sized(_ _ _)),
        prototype!(pardz_any_put(_ _ _ _)),
        prototype!(pardz_any_create(_ _)),
        prototype!(pardz_any_append(_ _ _ _)),
        prototype!(pardz_any_room(_ _ _ _)),
        prototype!(pardz_any_wrote(_ _ _)),
        prototype!(pardz_any_publish(_ _ _)),
        prototype!(pardz_any_downgrade(_ _ _)),
        prototype!(pardz_any_drop(_ _)),
        prototype!(pardz_any_get(_ _ _)),
        prototype!(pardz_any_clone(_ _ _)),
        prototype!(pardz_any_release(_ _)),
        prototype!(pardz_any_own(_ _ _)),
        prototype!(pardz_any_clear(_ _)),
        prototype!(pardz_own(_ _ _ _)),
        prototype!(pardz_own_again(_ _)),
        prototype!(pardz_owned_bytes(_ _ _)),
        prototype!(pardz_disown(_)),
    ];
    let header = include_str!("../pardz.h").lines();
    let of_heap = ["alloc", "realloc", "dealloc", "next_number", "set_heap"]
        .map(|name| format!("pardz_{name}"));
    let said: Vec<_> = header
        .filter_map(declared)
        .filter(|(name, ..)| !of_heap.contains(name))
        .collect();
    assert_eq!(here, said.as_slice());
}

//! How a line of the table is read: what becomes of it on the reference, on the library's raw calls and on its safe ones.
//! All three have the call under its name, with what it reads and then what it writes.

/// What a call writes, if anything.
macro_rules! writes {
    () => {
        None
    };
    ($writes:ident) => {
        Some(Writes::$writes)
    };
}

/// The part of the output that a call takes.
macro_rules! part {
    ($out:ident List) => {
        $out.numbers
    };
    ($out:ident $bytes:ident) => {
        $out.bytes
    };
}

/// The library's two layers.
#[cfg(feature = "library")]
macro_rules! layers {
    ($call:ident($($lent:ident),*; $($writes:ident)?)) => {
        &[
            ("raw", |lent, out| {
                crate::said::raw(powhanire::raw::$call($(lent.$lent,)* $(part!(out $writes))?))
            }),
            ("safe", |lent, out| {
                let starts = out.starts();
                crate::said::safe(powhanire::$call($(lent.$lent,)* $(part!(out $writes))?), starts)
            }),
        ]
    };
}

#[cfg(not(feature = "library"))]
macro_rules! layers {
    ($($call:tt)*) => {
        &[]
    };
}

/// A line: NAME: call(what it reads => what it writes) what it says [its refusals].
macro_rules! table {
    ($($id:ident: $call:ident($($lent:ident),* $(=> $writes:ident)?) $says:ident [$($refusal:literal)*];)*) => {
        $(#[allow(unused_variables)] // a call that writes nothing has no use for `out`
        pub const $id: &Call = &Call {
            name: stringify!($call),
            lent: &[$(Kind::$lent),*],
            writes: writes!($($writes)?),
            says: Says::$says,
            refusals: &[$($refusal),*],
            reference: |lent, out| reference::$call($(lent.$lent,)* $(part!(out $writes))?),
            layers: layers!($call($($lent),*; $($writes)?)),
        };)*

        pub const PUBLIC: &[&Call] = &[$($id),*];
    };
}

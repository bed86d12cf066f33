//! What calls read, by kind. A new kind is a line of the list below, and a value of it in the functions at the end, which
//! have one for tests that speak of other kinds.

/// A value: a number, or a list, of numbers as `I` or of bytes as `B`.
#[derive(Clone, Copy, Debug, PartialEq, Eq)]
pub enum Value<I, B> {
    Number(u64),
    Numbers(I),
    Bytes(B),
}

/// A field as it is lent.
macro_rules! lent {
    (Number, $field:expr) => {
        $field
    };
    ($list:ident, $field:expr) => {
        &$field
    };
}

macro_rules! kinds {
    ($($kind:ident: $form:ident($type:ty),)*) => {
        /// The kinds, by the names that the table of calls has for them.
        #[allow(non_camel_case_types)]
        #[derive(Clone, Copy, Debug, PartialEq, Eq)]
        pub enum Kind {
            $($kind,)*
        }

        impl Kind {
            pub const ALL: &'static [Kind] = &[$(Kind::$kind,)*];
        }

        /// A value of each kind. A call reads those that its line of the table names.
        #[derive(Clone, Copy, Debug, Default)]
        pub struct Each<I, B> {
            $(pub $kind: $type,)*
        }

        impl<I: Clone, B: Clone> Each<I, B> {
            pub fn value(&self, kind: Kind) -> Value<I, B> {
                match kind {
                    $(Kind::$kind => Value::$form(self.$kind.clone()),)*
                }
            }

            pub fn put(&mut self, kind: Kind, value: Value<I, B>) {
                match (kind, value) {
                    $((Kind::$kind, Value::$form(value)) => self.$kind = value,)*
                    (kind, _) => panic!("a value of another form than {kind:?} has"),
                }
            }
        }

        impl Values {
            pub fn lend(&self) -> Lent<'_> {
                Lent { $($kind: lent!($form, self.$kind),)* }
            }
        }
    };
}

/// Values that are held, and that are lent.
pub type Values = Each<Vec<i32>, Vec<u8>>;
pub type Lent<'a> = Each<&'a [i32], &'a [u8]>;

kinds! {
    n: Number(u64),
    rules: Numbers(I),
    row: Bytes(B),
    d: Number(u64),
    choice: Bytes(B),
    rule_file: Bytes(B),
    wish_file: Bytes(B),
}

impl Kind {
    /// Whether it is a text, with a reader of its own.
    pub fn is_file(self) -> bool {
        matches!(self, Kind::rule_file | Kind::wish_file)
    }
}

/// Rules alone.
pub fn ruled(n: u64, rules: &[i32]) -> Values {
    Values { n, rules: rules.to_vec(), ..Values::default() }
}

/// Rules, wishes and a limit, which not every call reads.
pub fn wished(n: u64, rules: &[i32], row: &[u8], d: u64) -> Values {
    Values { row: row.to_vec(), d, ..ruled(n, rules) }
}

/// The same with a choice, and limit 0.
pub fn chosen(n: u64, rules: &[i32], row: &[u8], choice: &[u8]) -> Values {
    Values { choice: choice.to_vec(), ..wished(n, rules, row, 0) }
}

pub fn rule_file(file: &[u8]) -> Values {
    Values { rule_file: file.to_vec(), ..Values::default() }
}

pub fn wish_file(file: &[u8]) -> Values {
    Values { wish_file: file.to_vec(), ..Values::default() }
}

//! The tables of events: a row makes an event, its turn in the report and its words.

/// Makes an enum of events from a table. A row is an event, the values of its fields that scripts
/// can show, and its words as `format!` takes them. The rows of a part, in their order, are a list,
/// which is what the report prints and what `--complete` asks for. Where the words need it, the
/// enum's name is followed by what is given to them.
macro_rules! events {
    (
        $(#[$about:meta])*
        pub enum $name:ident $(($given:ident: $given_type:ty))? {
            $(
                $(#[$about_list:meta])*
                $list:ident {
                    $(
                        $(#[$about_event:meta])*
                        $event:ident
                        $(($($item:ident: $item_type:ty),+))?
                        $({ $($field:ident: $field_type:ty),+ })?
                        $(in $values:expr)?
                        => $($words:expr),+;
                    )+
                }
            )+
        }
    ) => {
        $(#[$about])*
        #[derive(Clone, Copy, PartialEq, Eq, PartialOrd, Ord, Debug)]
        pub enum $name {
            $($(
                $(#[$about_event])*
                $event $(($($item_type),+))? $({ $($field: $field_type),+ })?,
            )+)+
        }

        impl $name {
            $(
                $(#[$about_list])*
                pub fn $list() -> Vec<$name> {
                    let mut list = Vec::new();
                    $(list.extend($crate::coverage::events::values!(
                        $name $event $(($($item),+))? $({ $($field),+ })? $($values)?
                    ));)+
                    list
                }
            )+

            /// The event in words.
            pub fn words(self $(, $given: $given_type)?) -> String {
                match self {
                    $($(
                        $name::$event $(($($item),+))? $({ $($field),+ })? => format!($($words),+),
                    )+)+
                }
            }
        }
    };
}

/// The events of one row.
macro_rules! values {
    ($name:ident $event:ident) => {
        [$name::$event]
    };
    ($name:ident $event:ident ($item:ident) $values:expr) => {
        $values.into_iter().map($name::$event)
    };
    ($name:ident $event:ident ($($item:ident),+) $values:expr) => {
        $values.into_iter().map(|($($item),+)| $name::$event($($item),+))
    };
    ($name:ident $event:ident { $field:ident } $values:expr) => {
        $values.into_iter().map(|$field| $name::$event { $field })
    };
    ($name:ident $event:ident { $($field:ident),+ } $values:expr) => {
        $values.into_iter().map(|($($field),+)| $name::$event { $($field),+ })
    };
}

pub(super) use {events, values};

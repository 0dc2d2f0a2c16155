//! Enums whose values are gone through.

/// An enum, and all of its values in a list.
#[macro_export]
macro_rules! listed {
    ($(#[$about:meta])* $seen:vis enum $name:ident in $list:ident { $($(#[$what:meta])* $value:ident,)* }) => {
        $(#[$about])*
        #[derive(Clone, Copy, Debug, PartialEq, Eq)]
        $seen enum $name { $($(#[$what])* $value,)* }

        /// All of them.
        $seen const $list: [$name; [$($name::$value),*].len()] = [$($name::$value),*];
    };
}

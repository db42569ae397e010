//! Enums whose variants are listed in constants too, without being written twice.

/// An enum of kinds with `ALL`, its variants in their order. Where they stand in several lists, each list is a constant of that name; after
/// `with` a kind may stand that holds another and is in no list.
#[macro_export]
macro_rules! kinds {
    ($(#[$on:meta])* $seen:vis enum $name:ident { $($(#[$of:meta])* $kind:ident,)+ }) => {
        $crate::kinds! { $(#[$on])* $seen enum $name { ALL { $($(#[$of])* $kind,)+ } } }
    };
    ($(#[$on:meta])* $seen:vis enum $name:ident $(with $holding:ident($held:ty))? {
        $($(#[$to:meta])* $list:ident { $($(#[$of:meta])* $kind:ident,)+ })+
    }) => {
        $(#[$on])*
        #[derive(Clone, Copy, Debug, PartialEq, Eq, PartialOrd, Ord)]
        $seen enum $name {
            $($holding($held),)?
            $($($(#[$of])* $kind,)+)+
        }

        impl $name {
            $($(#[$to])* $seen const $list: [$name; [$($name::$kind),+].len()] = [$($name::$kind),+];)+
        }
    };
}

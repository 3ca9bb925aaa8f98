//! The columns of a segment's row, lent and watched: all of them are made from the library's own list.

use crate::lent::{Lent, Use, Watched};
use humoraki::lent::Columns;

macro_rules! watch_columns {
    ($($column:ident: $number:ty,)*) => {
        /// How many columns there are.
        pub const PLACES: usize = [$(stringify!($column)),*].len();

        pub struct LentColumns {
            $($column: Lent<$number>,)*
        }

        /// What the columns have to hold for one segment.
        pub struct Row {
            $(pub $column: $number,)*
        }

        impl LentColumns {
            pub fn new() -> LentColumns {
                LentColumns { $($column: Lent::new(stringify!($column), Use::Filled),)* }
            }

            pub fn lent(&mut self) -> [&mut dyn Watched; PLACES] {
                [$(&mut self.$column),*]
            }

            pub fn columns(&mut self) -> Columns<'_> {
                Columns { $($column: self.$column.entries_mut(),)* }
            }

            pub fn expect(&mut self, rows: &[Row]) {
                $(self.$column.expect(&rows.iter().map(|row| row.$column).collect::<Vec<_>>());)*
            }
        }

        impl Row {
            /// The numbers of the row, in the order of the columns.
            pub fn numbers(&self) -> [i128; PLACES] {
                [$(self.$column.into()),*]
            }
        }
    };
}

humoraki::segment_columns!(watch_columns);

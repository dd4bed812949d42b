//! Tables with as many subtables as HarfBuzz reads, and with more.

use crate::fonts::bytes::bytes_of;
use crate::fonts::lookups::list_of;
use vukhaso::internals::ot_lookups::subtable_limit::is_refused;
use vukhaso::memory::{AllocError, Vec};

/// A table `GSUB` of so many lookups, which share one of 512 subtables.
fn table_of(lookups: u16) -> Result<Vec<u8>, AllocError> {
    debug_assert!(lookups < 100);
    let mut words = Vec::new();
    for word in [1, 0, 0, 0, 10, lookups] {
        words.push(word)?;
    }
    for _lookup in 0..lookups {
        words.push(2 + 2 * lookups)?;
    }
    for word in [1, 0, 512] {
        words.push(word)?;
    }
    for _subtable in 0..512 {
        words.push(0)?;
    }
    bytes_of(&words)
}

#[test]
fn tables_of_too_many_subtables_have_no_lookups() -> Result<(), AllocError> {
    let rows = [(31, 31, false), (32, 0, false), (33, 0, true)];
    for (lookups, read, refused) in rows {
        let table = table_of(lookups)?;
        assert_eq!(list_of(&table)?.lookups.len(), read, "{lookups} lookups");
        assert_eq!(is_refused(&table), refused, "{lookups} lookups");
    }
    Ok(())
}

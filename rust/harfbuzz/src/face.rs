//! `hb-face.h`: a font of a file, or of single tables.

mod builder;
mod characters;
mod names;
pub mod pool;

use crate::blob::{hb_blob_destroy, hb_blob_t, part};
use crate::face::pool::Pool;
use crate::object::{Empty, Header, Object, given, object_calls, reference, release};
use crate::ot::name::hb_ot_name_entry_t;
use crate::sfnt;
use crate::types::{hb_bool_t, hb_destroy_func_t, hb_tag_t, put_part, tag};
use std::cell::Cell;
use std::ffi::{c_char, c_uint, c_void};
use std::ptr::null_mut;
use std::sync::OnceLock;
use std::sync::atomic::{AtomicU32, Ordering};
use vukhaso::internals::font_tables::directory::Tables;
use vukhaso::internals::ot_shape::KeptPlans;

pub type hb_reference_table_func_t = Option<unsafe extern "C" fn(*mut hb_face_t, hb_tag_t, *mut c_void) -> *mut hb_blob_t>;
pub type hb_get_table_tags_func_t =
    Option<unsafe extern "C" fn(*const hb_face_t, c_uint, *mut c_uint, *mut hb_tag_t, *mut c_void) -> c_uint>;

const UNKNOWN: u32 = u32::MAX;

/// The tables that a shaper may ask for, of which a file is made where a face has single tables.
const SHAPER_TABLES: [&[u8; 4]; 34] = [
    b"BASE", b"CBDT", b"CBLC", b"CFF ", b"CFF2", b"COLR", b"GDEF", b"GPOS", b"GSUB", b"HVAR", b"MVAR", b"OS/2", b"VORG", b"VVAR",
    b"ankr", b"avar", b"cmap", b"feat", b"fvar", b"glyf", b"gvar", b"head", b"hhea", b"hmtx", b"kern", b"kerx", b"loca", b"maxp",
    b"morx", b"mort", b"post", b"sbix", b"trak", b"vhea",
];

/// A table that is fetched once.
type Table = OnceLock<TableBytes>;

struct TableBytes(*mut hb_blob_t);

// SAFETY: the blob is immutable, and this holds a reference of it.
unsafe impl Send for TableBytes {}
// SAFETY: as above.
unsafe impl Sync for TableBytes {}

impl TableBytes {
    fn bytes(&self) -> &[u8] {
        // SAFETY: the reference that this holds keeps the blob alive.
        unsafe { &*self.0 }.bytes()
    }
}

impl Drop for TableBytes {
    fn drop(&mut self) {
        // SAFETY: this gives up its own reference.
        unsafe { hb_blob_destroy(self.0) }
    }
}

/// A font, apart from its size. What is set of it is atomic or set before it is shared, as HarfBuzz says.
pub struct hb_face_t {
    header: Header,
    index: AtomicU32,
    units_per_em: AtomicU32,
    glyph_count: AtomicU32,
    /// The file; null where the face has single tables.
    file: *mut hb_blob_t,
    reference_table: Cell<hb_reference_table_func_t>,
    table_data: Cell<*mut c_void>,
    destroy_tables: Cell<hb_destroy_func_t>,
    get_tags: Cell<hb_get_table_tags_func_t>,
    tags_data: Cell<*mut c_void>,
    destroy_tags: Cell<hb_destroy_func_t>,
    /// The fonts of the shaper. It stands before the bytes that they read, and so it is dropped first.
    pool: Pool,
    /// The bytes that the shaper reads.
    shaper_bytes: Table,
    tables: [Table; KEPT.len()],
    names: OnceLock<names::Names>,
    name_entries: OnceLock<Vec<hb_ot_name_entry_t>>,
}

/// The tables that queries ask for, which are fetched once.
const KEPT: [&[u8; 4]; 36] = [
    b"BASE", b"CBDT", b"CBLC", b"CFF ", b"CFF2", b"COLR", b"CPAL", b"GDEF", b"GPOS", b"GSUB", b"MATH", b"MVAR", b"OS/2", b"STAT",
    b"SVG ", b"avar", b"cmap", b"feat", b"fvar", b"glyf", b"gvar", b"head", b"hhea", b"hmtx", b"kerx", b"loca", b"maxp", b"meta",
    b"morx", b"mort", b"name", b"post", b"sbix", b"trak", b"vhea", b"vmtx",
];

impl Object for hb_face_t {
    fn header(&self) -> &Header {
        &self.header
    }

    fn empty() -> *mut Self {
        static EMPTY: Empty<hb_face_t> = Empty::new();
        EMPTY.get(|| {
            let face = hb_face_t::of(Header::of_empty(), null_mut());
            face.units_per_em.store(1000, Ordering::Relaxed);
            face.glyph_count.store(0, Ordering::Relaxed);
            face
        })
    }
}

object_calls!(hb_face_t: hb_face_get_empty hb_face_reference hb_face_destroy hb_face_set_user_data hb_face_get_user_data);

impl Drop for hb_face_t {
    fn drop(&mut self) {
        self.pool.clear();
        release(self.table_data.get(), self.destroy_tables.get());
        release(self.tags_data.get(), self.destroy_tags.get());
        // SAFETY: the face gives up its own reference.
        unsafe { hb_blob_destroy(self.file) }
    }
}

impl hb_face_t {
    fn of(header: Header, file: *mut hb_blob_t) -> Self {
        hb_face_t {
            header,
            index: AtomicU32::new(0),
            units_per_em: AtomicU32::new(0),
            glyph_count: AtomicU32::new(UNKNOWN),
            file,
            reference_table: Cell::new(None),
            table_data: Cell::new(null_mut()),
            destroy_tables: Cell::new(None),
            get_tags: Cell::new(None),
            tags_data: Cell::new(null_mut()),
            destroy_tags: Cell::new(None),
            pool: Pool::new(),
            shaper_bytes: OnceLock::new(),
            tables: [const { OnceLock::new() }; KEPT.len()],
            names: OnceLock::new(),
            name_entries: OnceLock::new(),
        }
    }

    /// The face of a file, of which it takes a reference over.
    pub fn of_file(file: *mut hb_blob_t, index: u32) -> *mut hb_face_t {
        let face = hb_face_t::of(Header::new(), file);
        face.index.store(index, Ordering::Relaxed);
        given(face)
    }

    pub fn file_index(&self) -> u32 {
        self.index.load(Ordering::Relaxed)
    }

    /// The number of the named instance that the index chooses in its upper half.
    pub fn instance(&self) -> Option<u32> {
        (self.file_index() >> 16).checked_sub(1)
    }

    fn file_bytes(&self) -> &[u8] {
        // SAFETY: the face holds a reference of its file, where it has one.
        unsafe { self.file.as_ref() }.map_or(&[], hb_blob_t::bytes)
    }

    fn fetch(&self, tag: hb_tag_t) -> *mut hb_blob_t {
        if !self.file.is_null() {
            return self.fetch_from_file(tag);
        }
        let Some(reference_table) = self.reference_table.get() else {
            return hb_blob_t::empty();
        };
        // SAFETY: the user's function, with its data; it answers a reference or null.
        let blob = unsafe { reference_table(std::ptr::from_ref(self).cast_mut(), tag, self.table_data.get()) };
        if blob.is_null() { hb_blob_t::empty() } else { blob }
    }

    fn fetch_from_file(&self, tag: hb_tag_t) -> *mut hb_blob_t {
        if tag == 0 {
            // SAFETY: the face holds a reference of its file.
            return unsafe { reference(self.file) };
        }
        let file = self.file_bytes();
        let found = Tables::new(file, self.file_index() & 0xFFFF);
        let table = found.map_or(&[][..], |tables| tables.table(vukhaso::Tag(tag)));
        if table.is_empty() {
            return hb_blob_t::empty();
        }
        part(self.file, table.as_ptr() as usize - file.as_ptr() as usize, table.len())
    }

    /// A table that queries ask for.
    pub fn table(&self, name: &[u8; 4]) -> &[u8] {
        match KEPT.iter().position(|kept| *kept == name) {
            Some(place) => self.tables[place].get_or_init(|| self.locked(tag(name))).bytes(),
            None => &[],
        }
    }

    /// A part of such a table, as a blob.
    pub fn table_part(&self, name: &[u8; 4], offset: usize, length: usize) -> *mut hb_blob_t {
        match KEPT.iter().position(|kept| *kept == name) {
            Some(place) => part(self.tables[place].get_or_init(|| self.locked(tag(name))).0, offset, length),
            None => hb_blob_t::empty(),
        }
    }

    fn locked(&self, tag: hb_tag_t) -> TableBytes {
        let blob = self.fetch(tag);
        // SAFETY: a blob that was just referenced.
        unsafe { crate::blob::hb_blob_make_immutable(blob) };
        TableBytes(blob)
    }

    /// The bytes that the shaper reads, with the index of the font in them.
    fn shaper_bytes(&self) -> (&[u8], u32) {
        let index = if self.file.is_null() { 0 } else { self.file_index() & 0xFFFF };
        let bytes = self
            .shaper_bytes
            .get_or_init(|| if self.file.is_null() { TableBytes(hb_blob_t::owning(self.gathered())) } else { self.locked(0) });
        (bytes.bytes(), index)
    }

    /// A file of the tables that the shaper may ask for.
    fn gathered(&self) -> Vec<u8> {
        let blobs: Vec<_> = SHAPER_TABLES.iter().chain(&[b"vmtx"]).map(|name| (tag(name), self.locked(tag(name)))).collect();
        let tables: Vec<_> =
            blobs.iter().map(|(tag, blob)| (*tag, blob.bytes())).filter(|(_, table)| !table.is_empty()).collect();
        sfnt::file_of(0x0001_0000, &tables)
    }

    /// The names of the font, in order.
    pub fn name_entries(&self) -> &[hb_ot_name_entry_t] {
        self.name_entries.get_or_init(|| crate::ot::name::entries(self.table(b"name")))
    }

    /// The settings of a font at the size of its units.
    pub fn plain_settings(&self) -> pool::Settings {
        let units = self.units_per_em();
        pool::Settings { units_per_em: units, scale: (units as i32, units as i32), ..Default::default() }
    }

    /// The normalized coordinates of a value on each axis.
    pub fn normalized(&self, design: &[f32]) -> Vec<i32> {
        crate::ot::var::normalized(self, design)
    }

    /// Lends a font of the shaper with these settings.
    pub fn with_shaper<T>(
        &self,
        settings: &pool::Settings,
        ask: impl FnOnce(&mut vukhaso::Face<'static>, &mut KeptPlans) -> T,
    ) -> T {
        let (bytes, index) = self.shaper_bytes();
        // SAFETY: the bytes stay while `shaper_bytes` holds its blob, which is until after the pool is cleared, and no font of the
        // pool gets out of it.
        let bytes: &'static [u8] = unsafe { std::slice::from_raw_parts(bytes.as_ptr(), bytes.len()) };
        self.pool.with(bytes, index, settings, ask)
    }

    pub fn units_per_em(&self) -> u32 {
        match self.units_per_em.load(Ordering::Relaxed) {
            0 => {
                let units = match sfnt::u16_at(self.table(b"head"), 18) {
                    units @ 16..=16384 => u32::from(units),
                    _ => 1000,
                };
                self.units_per_em.store(units, Ordering::Relaxed);
                units
            }
            units => units,
        }
    }

    pub fn glyph_count(&self) -> u32 {
        match self.glyph_count.load(Ordering::Relaxed) {
            UNKNOWN => {
                let count = u32::from(sfnt::u16_at(self.table(b"maxp"), 4));
                self.glyph_count.store(count, Ordering::Relaxed);
                count
            }
            count => count,
        }
    }
}

#[unsafe(no_mangle)]
pub unsafe extern "C" fn hb_face_count(blob: *mut hb_blob_t) -> c_uint {
    // SAFETY: HarfBuzz's terms: a blob that is alive, or null.
    unsafe { blob.as_ref() }.map_or(0, |blob| sfnt::face_count(blob.bytes()))
}

#[unsafe(no_mangle)]
pub unsafe extern "C" fn hb_face_create(blob: *mut hb_blob_t, index: c_uint) -> *mut hb_face_t {
    let blob = if blob.is_null() { hb_blob_t::empty() } else { blob };
    // SAFETY: HarfBuzz's terms: a blob that is alive.
    unsafe { crate::blob::hb_blob_make_immutable(blob) };
    // SAFETY: as above.
    let readable = sfnt::face_count(unsafe { &*blob }.bytes()) > 0;
    // SAFETY: as above.
    let file = if readable { unsafe { reference(blob) } } else { hb_blob_t::empty() };
    hb_face_t::of_file(file, index)
}

#[unsafe(no_mangle)]
pub unsafe extern "C" fn hb_face_create_or_fail(blob: *mut hb_blob_t, index: c_uint) -> *mut hb_face_t {
    // SAFETY: the same terms.
    if index & 0xFFFF < unsafe { hb_face_count(blob) } {
        // SAFETY: the same terms.
        unsafe { hb_face_create(blob, index) }
    } else {
        null_mut()
    }
}

#[unsafe(no_mangle)]
pub unsafe extern "C" fn hb_face_create_from_file_or_fail(name: *const c_char, index: c_uint) -> *mut hb_face_t {
    // SAFETY: the same terms.
    let blob = unsafe { crate::blob::hb_blob_create_from_file_or_fail(name) };
    if blob.is_null() {
        return null_mut();
    }
    // SAFETY: the blob was just made, and is given up.
    unsafe {
        let face = hb_face_create_or_fail(blob, index);
        hb_blob_destroy(blob);
        face
    }
}

#[unsafe(no_mangle)]
pub extern "C" fn hb_face_create_for_tables(
    reference_table: hb_reference_table_func_t,
    user_data: *mut c_void,
    destroy: hb_destroy_func_t,
) -> *mut hb_face_t {
    if reference_table.is_none() {
        release(user_data, destroy);
        return hb_face_t::empty();
    }
    let face = hb_face_t::of(Header::new(), null_mut());
    face.reference_table.set(reference_table);
    face.table_data.set(user_data);
    face.destroy_tables.set(destroy);
    given(face)
}

#[unsafe(no_mangle)]
pub unsafe extern "C" fn hb_face_make_immutable(face: *mut hb_face_t) {
    // SAFETY: HarfBuzz's terms: a face that is alive.
    unsafe { &*face }.header.make_immutable();
}

#[unsafe(no_mangle)]
pub unsafe extern "C" fn hb_face_is_immutable(face: *const hb_face_t) -> hb_bool_t {
    // SAFETY: HarfBuzz's terms: a face that is alive.
    unsafe { &*face }.header.is_immutable().into()
}

#[unsafe(no_mangle)]
pub unsafe extern "C" fn hb_face_reference_table(face: *const hb_face_t, tag: hb_tag_t) -> *mut hb_blob_t {
    // SAFETY: HarfBuzz's terms: a face that is alive.
    if tag == 0 { hb_blob_t::empty() } else { unsafe { &*face }.fetch(tag) }
}

#[unsafe(no_mangle)]
pub unsafe extern "C" fn hb_face_reference_blob(face: *mut hb_face_t) -> *mut hb_blob_t {
    // SAFETY: HarfBuzz's terms: a face that is alive.
    let shared = unsafe { &*face };
    let blob = shared.fetch(0);
    if blob != hb_blob_t::empty() {
        return blob;
    }
    let tags = shared.tags();
    let blobs: Vec<_> = tags.iter().map(|&tag| (tag, shared.locked(tag))).collect();
    let tables: Vec<_> = blobs.iter().map(|(tag, blob)| (*tag, blob.bytes())).collect();
    if tables.is_empty() { hb_blob_t::empty() } else { hb_blob_t::owning(builder::file_of_tables(&tables)) }
}

/// Sets a property of a face that may be changed.
macro_rules! set_number {
    ($call:ident $field:ident) => {
        #[unsafe(no_mangle)]
        pub unsafe extern "C" fn $call(face: *mut hb_face_t, number: c_uint) {
            // SAFETY: HarfBuzz's terms: a face that is alive.
            let face = unsafe { &*face };
            if !face.header.is_immutable() {
                face.$field.store(number, Ordering::Relaxed);
            }
        }
    };
}

set_number!(hb_face_set_index index);
set_number!(hb_face_set_upem units_per_em);
set_number!(hb_face_set_glyph_count glyph_count);

#[unsafe(no_mangle)]
pub unsafe extern "C" fn hb_face_get_index(face: *const hb_face_t) -> c_uint {
    // SAFETY: HarfBuzz's terms: a face that is alive.
    unsafe { &*face }.file_index()
}

#[unsafe(no_mangle)]
pub unsafe extern "C" fn hb_face_get_upem(face: *const hb_face_t) -> c_uint {
    // SAFETY: HarfBuzz's terms: a face that is alive.
    unsafe { &*face }.units_per_em()
}

#[unsafe(no_mangle)]
pub unsafe extern "C" fn hb_face_get_glyph_count(face: *const hb_face_t) -> c_uint {
    // SAFETY: HarfBuzz's terms: a face that is alive.
    unsafe { &*face }.glyph_count()
}

impl hb_face_t {
    /// The tags of the tables, where they are known.
    fn tags(&self) -> Vec<hb_tag_t> {
        if let Some(get_tags) = self.get_tags.get() {
            let mut tags = vec![0; 256];
            let mut count = 256;
            // SAFETY: the user's function, with its data and room for `count` tags.
            unsafe { get_tags(self, 0, &raw mut count, tags.as_mut_ptr(), self.tags_data.get()) };
            tags.truncate(count as usize);
            return tags;
        }
        sfnt::table_tags(self.file_bytes(), self.file_index() & 0xFFFF)
    }
}

#[unsafe(no_mangle)]
pub unsafe extern "C" fn hb_face_get_table_tags(
    face: *const hb_face_t,
    start: c_uint,
    count: *mut c_uint,
    tags: *mut hb_tag_t,
) -> c_uint {
    // SAFETY: HarfBuzz's terms: a face that is alive, and room for `count` tags.
    let shared = unsafe { &*face };
    if let Some(get_tags) = shared.get_tags.get() {
        // SAFETY: the user's function, with its data and what the caller passes.
        return unsafe { get_tags(face, start, count, tags, shared.tags_data.get()) };
    }
    // SAFETY: as above.
    unsafe { put_part(shared.tags().into_iter(), start, count, tags) }
}

#[unsafe(no_mangle)]
pub unsafe extern "C" fn hb_face_set_get_table_tags_func(
    face: *mut hb_face_t,
    get_tags: hb_get_table_tags_func_t,
    user_data: *mut c_void,
    destroy: hb_destroy_func_t,
) {
    // SAFETY: HarfBuzz's terms: a face that is alive.
    let face = unsafe { &*face };
    if face.header.is_immutable() {
        return release(user_data, destroy);
    }
    release(face.tags_data.get(), face.destroy_tags.get());
    face.get_tags.set(get_tags);
    face.tags_data.set(user_data);
    face.destroy_tags.set(destroy);
}

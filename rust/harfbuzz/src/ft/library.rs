//! FreeType: its calls, found in the program or loaded where it is asked for first, and the front of its structs, as `freetype.h`
//! declares them for machines of 64 bits.

use std::ffi::{CStr, c_char, c_int, c_long, c_short, c_uint, c_ulong, c_ushort, c_void};
use std::ptr::null_mut;
use std::sync::OnceLock;

#[repr(C)]
pub struct Generic {
    pub data: *mut c_void,
    pub finalizer: Option<unsafe extern "C" fn(*mut c_void)>,
}

#[repr(C)]
pub struct FaceRecord {
    pub num_faces: c_long,
    pub face_index: c_long,
    pub face_flags: c_long,
    style_flags: c_long,
    pub num_glyphs: c_long,
    family_name: *mut c_char,
    style_name: *mut c_char,
    pub num_fixed_sizes: c_int,
    pub available_sizes: *mut BitmapSize,
    num_charmaps: c_int,
    charmaps: *mut c_void,
    pub generic: Generic,
    bbox: [c_long; 4],
    pub units_per_em: c_ushort,
    pub ascender: c_short,
    pub descender: c_short,
    pub height: c_short,
    max_advance_width: c_short,
    max_advance_height: c_short,
    underline_position: c_short,
    underline_thickness: c_short,
    pub glyph: *mut GlyphSlot,
    pub size: *mut Size,
    pub charmap: *mut CharMap,
    driver: *mut c_void,
    memory: *mut c_void,
    pub stream: *mut Stream,
}

pub type Face = *mut FaceRecord;

#[repr(C)]
pub struct BitmapSize {
    height: c_short,
    width: c_short,
    size: c_long,
    pub x_ppem: c_long,
    pub y_ppem: c_long,
}

#[repr(C)]
pub struct Size {
    face: Face,
    generic: Generic,
    x_ppem: c_ushort,
    y_ppem: c_ushort,
    pub x_scale: c_long,
    pub y_scale: c_long,
    pub ascender: c_long,
    pub descender: c_long,
    pub height: c_long,
}

#[repr(C)]
pub struct CharMap {
    face: Face,
    pub encoding: c_uint,
}

#[repr(C)]
pub struct GlyphMetrics {
    pub width: c_long,
    pub height: c_long,
    pub hori_bearing_x: c_long,
    pub hori_bearing_y: c_long,
    hori_advance: c_long,
    pub vert_bearing_x: c_long,
    pub vert_bearing_y: c_long,
    vert_advance: c_long,
}

#[repr(C)]
#[derive(Clone, Copy)]
pub struct Vector {
    pub x: c_long,
    pub y: c_long,
}

#[repr(C)]
struct Bitmap {
    rows: c_uint,
    width: c_uint,
    pitch: c_int,
    buffer: *mut u8,
    num_grays: c_ushort,
    pixel_mode: u8,
    palette_mode: u8,
    palette: *mut c_void,
}

#[repr(C)]
pub struct Outline {
    n_contours: c_short,
    pub n_points: c_short,
    pub points: *mut Vector,
    tags: *mut c_char,
    contours: *mut c_short,
    flags: c_int,
}

#[repr(C)]
pub struct GlyphSlot {
    pub library: *mut c_void,
    face: Face,
    next: *mut GlyphSlot,
    glyph_index: c_uint,
    generic: Generic,
    pub metrics: GlyphMetrics,
    linear_hori_advance: c_long,
    linear_vert_advance: c_long,
    advance: Vector,
    pub format: c_uint,
    bitmap: Bitmap,
    bitmap_left: c_int,
    bitmap_top: c_int,
    pub outline: Outline,
}

#[repr(C)]
pub struct Stream {
    pub base: *mut u8,
    pub size: c_ulong,
    pos: c_ulong,
    descriptor: *mut c_void,
    pathname: *mut c_void,
    pub read: Option<unsafe extern "C" fn(*mut Stream, c_ulong, *mut u8, c_ulong) -> c_ulong>,
}

#[repr(C)]
pub struct Matrix {
    pub xx: c_long,
    pub xy: c_long,
    pub yx: c_long,
    pub yy: c_long,
}

#[repr(C)]
pub struct VariedMasters {
    pub num_axis: c_uint,
}

type Outlined = unsafe extern "C" fn(*const Vector, *mut c_void) -> c_int;
type Outlined2 = unsafe extern "C" fn(*const Vector, *const Vector, *mut c_void) -> c_int;
type Outlined3 = unsafe extern "C" fn(*const Vector, *const Vector, *const Vector, *mut c_void) -> c_int;

/// What the parts of an outline are handed to.
#[repr(C)]
pub struct OutlineFunctions {
    pub move_to: Outlined,
    pub line_to: Outlined,
    pub conic_to: Outlined2,
    pub cubic_to: Outlined3,
    pub shift: c_int,
    pub delta: c_long,
}

pub const NO_HINTING: c_int = 1 << 1;
pub const NO_BITMAP: c_int = 1 << 3;
pub const VERTICAL_LAYOUT: c_int = 1 << 4;
pub const OUTLINE: c_uint = u32::from_be_bytes(*b"outl");
pub const SYMBOL: c_uint = u32::from_be_bytes(*b"symb");
pub const UNICODE: c_uint = u32::from_be_bytes(*b"unic");

unsafe extern "C" {
    fn dlopen(name: *const c_char, flags: c_int) -> *mut c_void;
    fn dlsym(library: *mut c_void, name: *const c_char) -> *mut c_void;
}

/// `RTLD_LAZY` of Linux.
const LAZY: c_int = 1;

/// The address of a call: that of the program's own FreeType where it has one, and else of the library that is loaded.
fn address(name: &CStr) -> Option<*mut c_void> {
    struct Library(*mut c_void);
    // SAFETY: the handle of a library that is never unloaded.
    unsafe impl Send for Library {}
    // SAFETY: as above.
    unsafe impl Sync for Library {}
    static LIBRARY: OnceLock<Library> = OnceLock::new();
    // SAFETY: looks a name up in the program's global symbols, which a null handle stands for.
    let own = unsafe { dlsym(null_mut(), name.as_ptr()) };
    if !own.is_null() {
        return Some(own);
    }
    // SAFETY: loads a library by a name with a zero behind it.
    let library = LIBRARY.get_or_init(|| Library(unsafe { dlopen(c"libfreetype.so.6".as_ptr(), LAZY) }));
    if library.0.is_null() {
        return None;
    }
    // SAFETY: the handle is that of a library that stays loaded.
    let found = unsafe { dlsym(library.0, name.as_ptr()) };
    (!found.is_null()).then_some(found)
}

/// The calls of FreeType that are used.
macro_rules! calls {
    ($($field:ident $name:literal: fn($($argument:ty),*) -> $answer:ty;)*) => {
        pub struct FreeType {
            $(pub $field: unsafe extern "C" fn($($argument),*) -> $answer,)*
        }

        impl FreeType {
            fn find() -> Option<FreeType> {
                Some(FreeType {
                    $(
                        // SAFETY: the call of this name has this type in `freetype.h`.
                        $field: unsafe {
                            std::mem::transmute::<*mut c_void, unsafe extern "C" fn($($argument),*) -> $answer>(address($name)?)
                        },
                    )*
                })
            }
        }
    };
}

calls! {
    init c"FT_Init_FreeType": fn(*mut *mut c_void) -> c_int;
    new_memory_face c"FT_New_Memory_Face": fn(*mut c_void, *const u8, c_long, c_long, *mut Face) -> c_int;
    new_face c"FT_New_Face": fn(*mut c_void, *const c_char, c_long, *mut Face) -> c_int;
    reference_face c"FT_Reference_Face": fn(Face) -> c_int;
    done_face c"FT_Done_Face": fn(Face) -> c_int;
    select_charmap c"FT_Select_Charmap": fn(Face, c_uint) -> c_int;
    set_char_size c"FT_Set_Char_Size": fn(Face, c_long, c_long, c_uint, c_uint) -> c_int;
    set_transform c"FT_Set_Transform": fn(Face, *const Matrix, *const Vector) -> ();
    load_table c"FT_Load_Sfnt_Table": fn(Face, c_ulong, c_long, *mut u8, *mut c_ulong) -> c_int;
    table_info c"FT_Sfnt_Table_Info": fn(Face, c_uint, *mut c_ulong, *mut c_ulong) -> c_int;
    char_index c"FT_Get_Char_Index": fn(Face, c_ulong) -> c_uint;
    variant_index c"FT_Face_GetCharVariantIndex": fn(Face, c_ulong, c_ulong) -> c_uint;
    advance c"FT_Get_Advance": fn(Face, c_uint, c_int, *mut c_long) -> c_int;
    load_glyph c"FT_Load_Glyph": fn(Face, c_uint, c_int) -> c_int;
    kerning c"FT_Get_Kerning": fn(Face, c_uint, c_uint, c_uint, *mut Vector) -> c_int;
    glyph_name c"FT_Get_Glyph_Name": fn(Face, c_uint, *mut c_char, c_uint) -> c_int;
    name_index c"FT_Get_Name_Index": fn(Face, *const c_char) -> c_uint;
    decompose c"FT_Outline_Decompose": fn(*mut Outline, *const OutlineFunctions, *mut c_void) -> c_int;
    embolden c"FT_Outline_EmboldenXY": fn(*mut Outline, c_long, c_long) -> c_int;
    mul_fix c"FT_MulFix": fn(c_long, c_long) -> c_long;
    masters c"FT_Get_MM_Var": fn(Face, *mut *mut VariedMasters) -> c_int;
    done_masters c"FT_Done_MM_Var": fn(*mut c_void, *mut VariedMasters) -> c_int;
    blend c"FT_Get_Var_Blend_Coordinates": fn(Face, c_uint, *mut c_long) -> c_int;
    set_design c"FT_Set_Var_Design_Coordinates": fn(Face, c_uint, *mut c_long) -> c_int;
}

/// FreeType; `None` where there is none, or it is older than these calls.
pub fn freetype() -> Option<&'static FreeType> {
    static FOUND: OnceLock<Option<FreeType>> = OnceLock::new();
    FOUND.get_or_init(FreeType::find).as_ref()
}

/// The library that faces of this layer's own are opened with. It is never closed.
pub fn library(calls: &FreeType) -> *mut c_void {
    struct Made(*mut c_void);
    // SAFETY: an address; FreeType's terms for threads are those that HarfBuzz hands on.
    unsafe impl Send for Made {}
    // SAFETY: as above.
    unsafe impl Sync for Made {}
    static MADE: OnceLock<Made> = OnceLock::new();
    let made = MADE.get_or_init(|| {
        let mut library = null_mut();
        // SAFETY: a place for the address.
        unsafe { (calls.init)(&raw mut library) };
        Made(library)
    });
    made.0
}

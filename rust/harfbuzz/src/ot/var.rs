//! `hb-ot-var.h`: the axes and the named instances of a font. The proved reader has the axes; the names beside them are read here.

use crate::common::variations::hb_variation_t;
use crate::face::hb_face_t;
use crate::sfnt::{i16_at, tail, u16_at, u32_at};
use crate::types::{hb_bool_t, hb_tag_t, put, put_part, slice, slice_mut};
use std::ffi::{c_int, c_uint};
use vukhaso::internals::font_variations::{AxisMaps, VariationAxes};

/// A name that is none.
const NO_NAME: c_uint = 0xFFFF;
const NO_AXIS: c_uint = 0xFFFF_FFFF;

#[repr(C)]
#[derive(Clone, Copy, Default, Debug)]
pub struct hb_ot_var_axis_info_t {
    axis_index: c_uint,
    pub tag: hb_tag_t,
    name_id: c_uint,
    flags: c_uint,
    min_value: f32,
    pub default: f32,
    max_value: f32,
    reserved: c_uint,
}

/// The older form of what is said of an axis.
#[repr(C)]
#[derive(Clone, Copy, Default, Debug)]
pub struct hb_ot_var_axis_t {
    tag: hb_tag_t,
    name_id: c_uint,
    min_value: f32,
    default_value: f32,
    max_value: f32,
}

impl From<hb_ot_var_axis_info_t> for hb_ot_var_axis_t {
    fn from(info: hb_ot_var_axis_info_t) -> Self {
        hb_ot_var_axis_t {
            tag: info.tag,
            name_id: info.name_id,
            min_value: info.min_value,
            default_value: info.default,
            max_value: info.max_value,
        }
    }
}

/// The axes of a face.
pub struct Axes<'a> {
    table: &'a [u8],
    axes: VariationAxes<'a>,
}

impl<'a> Axes<'a> {
    pub fn of(face: &'a hb_face_t) -> Self {
        let table = face.table(b"fvar");
        Axes { table, axes: VariationAxes::new(table) }
    }

    /// What the table says of an axis beside its values.
    fn record(&self, number: u16) -> &'a [u8] {
        tail(self.table, usize::from(u16_at(self.table, 4)) + 20 * usize::from(number))
    }

    fn info(&self, number: u16) -> Option<hb_ot_var_axis_info_t> {
        let axis = self.axes.axis(number)?;
        let record = self.record(number);
        Some(hb_ot_var_axis_info_t {
            axis_index: number.into(),
            tag: axis.tag.as_u32(),
            name_id: u16_at(record, 18).into(),
            flags: u16_at(record, 16).into(),
            min_value: axis.minimum,
            default: axis.default,
            max_value: axis.maximum,
            reserved: 0,
        })
    }

    pub fn iter(&self) -> impl Iterator<Item = hb_ot_var_axis_info_t> {
        (0..self.axes.axis_count).map_while(|number| self.info(number))
    }

    fn all(&self) -> Vec<hb_ot_var_axis_info_t> {
        self.iter().collect()
    }

    fn instance_count(&self) -> u32 {
        if self.axes.axis_count == 0 { 0 } else { u16_at(self.table, 12).into() }
    }

    fn instance(&self, instance: u32) -> Option<&'a [u8]> {
        let size = usize::from(u16_at(self.table, 14));
        let start = usize::from(u16_at(self.table, 4)) + 20 * usize::from(self.axes.axis_count);
        (instance < self.instance_count()).then(|| tail(self.table, start + size * instance as usize))
    }

    /// The value of each axis of a named instance; none where there is no such instance.
    pub fn instance_values(&self, instance: u32) -> Vec<f32> {
        (0..self.axes.axis_count).map_while(|axis| self.axes.instance_value(instance, axis)).collect()
    }

    /// The values on the axes that have these normalized coordinates.
    pub fn design_of(&self, face: &hb_face_t, coordinates: &[i32]) -> Vec<f32> {
        let coordinates = unmapped(face.table(b"avar"), coordinates);
        let value = |(place, coordinate): (usize, &i32)| {
            let Some(axis) = self.info(place as u16) else {
                return 0.0;
            };
            let part = *coordinate as f32;
            let side = if *coordinate < 0 { axis.default - axis.min_value } else { axis.max_value - axis.default };
            part * side / 16384.0 + axis.default
        };
        coordinates.iter().enumerate().map(value).collect()
    }
}

/// The coordinates that the segments of `avar` move to these (OpenType specification, "avar - Axis Variations Table").
fn unmapped(table: &[u8], coordinates: &[i32]) -> Vec<i32> {
    let mut at = 8;
    let mut before = |coordinate: &i32| {
        let count = usize::from(u16_at(table, at));
        let pairs = tail(table, at + 2).chunks_exact(4).take(count);
        let segments: Vec<_> = pairs.map(|pair| (i32::from(i16_at(pair, 2)), i32::from(i16_at(pair, 0)))).collect();
        at += 2 + 4 * count;
        moved(&segments, *coordinate)
    };
    coordinates.iter().map(&mut before).collect()
}

/// A number on a line of segments, each end of which moves to another.
fn moved(segments: &[(i32, i32)], number: i32) -> i32 {
    let Some(place) = segments.iter().position(|(from, _)| number <= *from) else {
        return segments.last().map_or(number, |(from, to)| number - from + to);
    };
    let (from, to) = segments[place];
    if place == 0 || number == from {
        return number - from + to;
    }
    let (start, start_to) = segments[place - 1];
    let part = (to - start_to) as f32 * (number - start) as f32 / (from - start) as f32;
    (start_to as f32 + part).round() as i32
}

/// Moves coordinates as the table `avar` says.
fn mapped(face: &hb_face_t, coordinates: Vec<i32>) -> Vec<i32> {
    let maps = AxisMaps::new(face.table(b"avar"));
    let mut coordinates = coordinates;
    maps.map_segments(&mut coordinates);
    if maps.has_second_map() {
        coordinates = (0..coordinates.len()).map(|axis| maps.mapped_by_all(axis as u16, &coordinates)).collect();
    }
    coordinates
}

/// The normalized coordinates of a value on each axis.
pub fn normalized(face: &hb_face_t, design: &[f32]) -> Vec<i32> {
    let axes = Axes::of(face);
    let coordinate = |(place, value): (usize, &f32)| match u16::try_from(place).ok().and_then(|place| axes.axes.axis(place)) {
        Some(axis) => axis.normalized(*value),
        None => 0,
    };
    mapped(face, design.iter().enumerate().map(coordinate).collect())
}

/// The axes of a face that C passes.
///
/// # Safety
///
/// `face` is alive.
unsafe fn axes<'a>(face: *mut hb_face_t) -> Axes<'a> {
    // SAFETY: the caller's word.
    Axes::of(unsafe { &*face })
}

#[unsafe(no_mangle)]
pub unsafe extern "C" fn hb_ot_var_has_data(face: *mut hb_face_t) -> hb_bool_t {
    // SAFETY: HarfBuzz's terms: a face that is alive.
    (u32_at(unsafe { &*face }.table(b"fvar"), 0) == 0x0001_0000).into()
}

#[unsafe(no_mangle)]
pub unsafe extern "C" fn hb_ot_var_get_axis_count(face: *mut hb_face_t) -> c_uint {
    // SAFETY: HarfBuzz's terms: a face that is alive.
    unsafe { axes(face) }.axes.axis_count.into()
}

#[unsafe(no_mangle)]
pub unsafe extern "C" fn hb_ot_var_get_axis_infos(
    face: *mut hb_face_t,
    start: c_uint,
    count: *mut c_uint,
    infos: *mut hb_ot_var_axis_info_t,
) -> c_uint {
    // SAFETY: HarfBuzz's terms: a face that is alive, and room for `count` axes.
    unsafe { put_part(axes(face).all().into_iter(), start, count, infos) }
}

#[unsafe(no_mangle)]
pub unsafe extern "C" fn hb_ot_var_get_axes(
    face: *mut hb_face_t,
    start: c_uint,
    count: *mut c_uint,
    infos: *mut hb_ot_var_axis_t,
) -> c_uint {
    // SAFETY: HarfBuzz's terms: a face that is alive, and room for `count` axes.
    unsafe { put_part(axes(face).all().into_iter().map(hb_ot_var_axis_t::from), start, count, infos) }
}

#[unsafe(no_mangle)]
pub unsafe extern "C" fn hb_ot_var_find_axis_info(
    face: *mut hb_face_t,
    tag: hb_tag_t,
    info: *mut hb_ot_var_axis_info_t,
) -> hb_bool_t {
    // SAFETY: HarfBuzz's terms: a face that is alive, and a place.
    unsafe {
        match axes(face).iter().find(|axis| axis.tag == tag) {
            Some(found) => {
                put(info, found);
                1
            }
            None => 0,
        }
    }
}

#[unsafe(no_mangle)]
pub unsafe extern "C" fn hb_ot_var_find_axis(
    face: *mut hb_face_t,
    tag: hb_tag_t,
    number: *mut c_uint,
    info: *mut hb_ot_var_axis_t,
) -> hb_bool_t {
    // SAFETY: HarfBuzz's terms: a face that is alive, and places or null.
    unsafe {
        let found = axes(face).iter().find(|axis| axis.tag == tag);
        put(number, found.map_or(NO_AXIS, |found| found.axis_index));
        if let Some(found) = found {
            put(info, found.into());
        }
        found.is_some().into()
    }
}

#[unsafe(no_mangle)]
pub unsafe extern "C" fn hb_ot_var_get_named_instance_count(face: *mut hb_face_t) -> c_uint {
    // SAFETY: HarfBuzz's terms: a face that is alive.
    unsafe { axes(face) }.instance_count()
}

#[unsafe(no_mangle)]
pub unsafe extern "C" fn hb_ot_var_named_instance_get_subfamily_name_id(face: *mut hb_face_t, instance: c_uint) -> c_uint {
    // SAFETY: HarfBuzz's terms: a face that is alive.
    unsafe { axes(face) }.instance(instance).map_or(NO_NAME, |record| u16_at(record, 0).into())
}

#[unsafe(no_mangle)]
pub unsafe extern "C" fn hb_ot_var_named_instance_get_postscript_name_id(face: *mut hb_face_t, instance: c_uint) -> c_uint {
    // SAFETY: HarfBuzz's terms: a face that is alive.
    let axes = unsafe { axes(face) };
    let place = 4 + 4 * usize::from(axes.axes.axis_count);
    match axes.instance(instance) {
        Some(record) if usize::from(u16_at(axes.table, 14)) >= place + 2 => u16_at(record, place).into(),
        _ => NO_NAME,
    }
}

#[unsafe(no_mangle)]
pub unsafe extern "C" fn hb_ot_var_named_instance_get_design_coords(
    face: *mut hb_face_t,
    instance: c_uint,
    count: *mut c_uint,
    coordinates: *mut f32,
) -> c_uint {
    // SAFETY: HarfBuzz's terms: a face that is alive, and room for `count` coordinates.
    unsafe { put_part(axes(face).instance_values(instance).into_iter(), 0, count, coordinates) }
}

#[unsafe(no_mangle)]
pub unsafe extern "C" fn hb_ot_var_normalize_coords(
    face: *mut hb_face_t,
    count: c_uint,
    design: *const f32,
    coordinates: *mut c_int,
) {
    // SAFETY: HarfBuzz's terms: a face that is alive, and two lists of `count` items.
    unsafe {
        let found = normalized(&*face, slice(design, count as usize));
        slice_mut(coordinates, count as usize).copy_from_slice(&found);
    }
}

#[unsafe(no_mangle)]
pub unsafe extern "C" fn hb_ot_var_normalize_variations(
    face: *mut hb_face_t,
    variations: *const hb_variation_t,
    variation_count: c_uint,
    coordinates: *mut c_int,
    count: c_uint,
) {
    // SAFETY: HarfBuzz's terms: a face that is alive, and two lists of so many items.
    unsafe {
        let axes = axes(face);
        let mut found = vec![0; count as usize];
        for variation in slice(variations, variation_count as usize) {
            let Some(info) = axes.iter().find(|axis| axis.tag == variation.tag) else {
                continue;
            };
            let axis = axes.axes.axis(info.axis_index as u16);
            if let (Some(place), Some(axis)) = (found.get_mut(info.axis_index as usize), axis) {
                *place = axis.normalized(variation.value);
            }
        }
        slice_mut(coordinates, count as usize).copy_from_slice(&mapped(&*face, found));
    }
}

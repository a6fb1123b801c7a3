//! The exported functions of the static library. Each takes a slice as a pointer and a length, and has no premise but that the
//! slices are sound and do not overlap, which Rust's references ensure; so each wrapper here is safe.

mod c {
    extern "C" {
        pub fn relations_modulus(p: u32) -> u32;
        pub fn relations_add(p: u32, a: u32, b: u32, answer: *mut u32, answer_len: usize) -> u32;
        pub fn relations_multiply(p: u32, a: u32, b: u32, answer: *mut u32, answer_len: usize) -> u32;
        pub fn relations_invert(p: u32, a: u32, answer: *mut u32, answer_len: usize) -> u32;
        pub fn relations_basis(
            p: u32,
            n: u32,
            s: u32,
            d: *const u32,
            d_len: usize,
            series: *const u32,
            series_len: usize,
            basis: *mut u32,
            basis_len: usize,
            answer: *mut u32,
            answer_len: usize,
        ) -> u32;
        pub fn relations_approximant(
            p: u32,
            n: u32,
            d: *const u32,
            d_len: usize,
            series: *const u32,
            series_len: usize,
            basis: *mut u32,
            basis_len: usize,
            answer: *mut u32,
            answer_len: usize,
        ) -> u32;
        pub fn relations_bases(
            p: u32,
            n: u32,
            s: u32,
            sets: u32,
            d: *const u32,
            d_len: usize,
            series: *const u32,
            series_len: usize,
            bases: *mut u32,
            bases_len: usize,
            answers: *mut u32,
            answers_len: usize,
        ) -> u32;
        pub fn relations_pair(p: u32, k: u32, g: *const u32, g_len: usize, r: *mut u32, r_len: usize, t: *mut u32, t_len: usize) -> u32;
        pub fn relations_row(n: u32, s: u32, i: u32, basis: *const u32, basis_len: usize, answer: *mut u32, answer_len: usize) -> u32;
        pub fn relations_read(
            file: *const u8,
            file_len: usize,
            d: *mut u32,
            d_len: usize,
            series: *mut u32,
            series_len: usize,
            answer: *mut u32,
            answer_len: usize,
        ) -> u32;
        pub fn relations_write(
            p: u32,
            n: u32,
            s: u32,
            d: *const u32,
            d_len: usize,
            series: *const u32,
            series_len: usize,
            file: *mut u8,
            file_len: usize,
            answer: *mut u32,
            answer_len: usize,
        ) -> u32;
        pub fn relations_text(
            p: u32,
            n: u32,
            s: u32,
            d: *const u32,
            d_len: usize,
            basis: *const u32,
            basis_len: usize,
            least: u32,
            text: *mut u8,
            text_len: usize,
            answer: *mut u32,
            answer_len: usize,
        ) -> u32;
        pub fn relations_print(
            file: *const u8,
            file_len: usize,
            text: *mut u8,
            text_len: usize,
            answer: *mut u32,
            answer_len: usize,
        ) -> u32;
        pub fn relations_parse(
            text: *const u8,
            text_len: usize,
            d: *mut [u32; 8],
            series: *mut [u32; 2040],
            answer: *mut u32,
            answer_len: usize,
        ) -> u32;
        pub fn relations_parse_line(text: *const u8, text_len: usize) -> usize;
        pub fn relations_refused(number: u32, text: *mut u8, text_len: usize, answer: *mut u32, answer_len: usize) -> u32;
    }
}

pub fn modulus(p: u32) -> u32 {
    unsafe { c::relations_modulus(p) }
}

pub fn add(p: u32, a: u32, b: u32, answer: &mut [u32]) -> u32 {
    unsafe { c::relations_add(p, a, b, answer.as_mut_ptr(), answer.len()) }
}

pub fn multiply(p: u32, a: u32, b: u32, answer: &mut [u32]) -> u32 {
    unsafe { c::relations_multiply(p, a, b, answer.as_mut_ptr(), answer.len()) }
}

pub fn invert(p: u32, a: u32, answer: &mut [u32]) -> u32 {
    unsafe { c::relations_invert(p, a, answer.as_mut_ptr(), answer.len()) }
}

pub fn basis(p: u32, n: u32, s: u32, d: &[u32], series: &[u32], basis: &mut [u32], answer: &mut [u32]) -> u32 {
    unsafe {
        c::relations_basis(
            p,
            n,
            s,
            d.as_ptr(),
            d.len(),
            series.as_ptr(),
            series.len(),
            basis.as_mut_ptr(),
            basis.len(),
            answer.as_mut_ptr(),
            answer.len(),
        )
    }
}

pub fn approximant(p: u32, n: u32, d: &[u32], series: &[u32], basis: &mut [u32], answer: &mut [u32]) -> u32 {
    unsafe {
        c::relations_approximant(
            p,
            n,
            d.as_ptr(),
            d.len(),
            series.as_ptr(),
            series.len(),
            basis.as_mut_ptr(),
            basis.len(),
            answer.as_mut_ptr(),
            answer.len(),
        )
    }
}

#[allow(clippy::too_many_arguments)]
pub fn bases(p: u32, n: u32, s: u32, sets: u32, d: &[u32], series: &[u32], bases: &mut [u32], answers: &mut [u32]) -> u32 {
    unsafe {
        c::relations_bases(
            p,
            n,
            s,
            sets,
            d.as_ptr(),
            d.len(),
            series.as_ptr(),
            series.len(),
            bases.as_mut_ptr(),
            bases.len(),
            answers.as_mut_ptr(),
            answers.len(),
        )
    }
}

pub fn pair(p: u32, k: u32, g: &[u32], r: &mut [u32], t: &mut [u32]) -> u32 {
    unsafe { c::relations_pair(p, k, g.as_ptr(), g.len(), r.as_mut_ptr(), r.len(), t.as_mut_ptr(), t.len()) }
}

pub fn row(n: u32, s: u32, i: u32, basis: &[u32], answer: &mut [u32]) -> u32 {
    unsafe { c::relations_row(n, s, i, basis.as_ptr(), basis.len(), answer.as_mut_ptr(), answer.len()) }
}

pub fn read(file: &[u8], d: &mut [u32], series: &mut [u32], answer: &mut [u32]) -> u32 {
    unsafe {
        c::relations_read(
            file.as_ptr(),
            file.len(),
            d.as_mut_ptr(),
            d.len(),
            series.as_mut_ptr(),
            series.len(),
            answer.as_mut_ptr(),
            answer.len(),
        )
    }
}

pub fn write(p: u32, n: u32, s: u32, d: &[u32], series: &[u32], file: &mut [u8], answer: &mut [u32]) -> u32 {
    unsafe {
        c::relations_write(
            p,
            n,
            s,
            d.as_ptr(),
            d.len(),
            series.as_ptr(),
            series.len(),
            file.as_mut_ptr(),
            file.len(),
            answer.as_mut_ptr(),
            answer.len(),
        )
    }
}

#[allow(clippy::too_many_arguments)]
pub fn text(p: u32, n: u32, s: u32, d: &[u32], basis: &[u32], least: u32, text: &mut [u8], answer: &mut [u32]) -> u32 {
    unsafe {
        c::relations_text(
            p,
            n,
            s,
            d.as_ptr(),
            d.len(),
            basis.as_ptr(),
            basis.len(),
            least,
            text.as_mut_ptr(),
            text.len(),
            answer.as_mut_ptr(),
            answer.len(),
        )
    }
}

pub fn refused(number: u32, text: &mut [u8], answer: &mut [u32]) -> u32 {
    unsafe { c::relations_refused(number, text.as_mut_ptr(), text.len(), answer.as_mut_ptr(), answer.len()) }
}

pub fn parse(text: &[u8], d: &mut [u32; 8], series: &mut [u32; 2040], answer: &mut [u32]) -> u32 {
    unsafe { c::relations_parse(text.as_ptr(), text.len(), d, series, answer.as_mut_ptr(), answer.len()) }
}

pub fn parse_line(text: &[u8]) -> usize {
    unsafe { c::relations_parse_line(text.as_ptr(), text.len()) }
}

pub fn print(file: &[u8], text: &mut [u8], answer: &mut [u32]) -> u32 {
    unsafe { c::relations_print(file.as_ptr(), file.len(), text.as_mut_ptr(), text.len(), answer.as_mut_ptr(), answer.len()) }
}

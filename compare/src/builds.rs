//! Builds of the library as shared objects, so that several can be loaded side
//! by side and asked the same queries in turn. Their C functions must take what
//! `capi` says.

use crate::capi::{Answer, Settings, UNANSWERED};
use crate::store::Index;
use std::ffi::{CStr, CString, c_char, c_int, c_void};
use std::mem::transmute;

unsafe extern "C" {
    fn dlopen(file: *const c_char, mode: c_int) -> *mut c_void;
    fn dlsym(object: *mut c_void, name: *const c_char) -> *mut c_void;
    fn dlerror() -> *const c_char;
}

/// Each slice is a pointer and a length: references, postings, stopped keys.
type LiveCount =
    unsafe extern "C" fn(*const u32, usize, *const u32, usize, *const u32, usize, &mut Answer);

/// The three slices, scratch, hashes, then numbers: the rate, the settings and
/// the set, in the order of the C function.
macro_rules! query_type {
    ($($number:ty),*) => {
        unsafe extern "C" fn(
            *const u32, usize, *const u32, usize, *const u32, usize, *mut i64, usize, *const u32,
            usize, $($number,)* &mut Answer,
        )
    };
}

type WangQuery = query_type!(u32, u32, u32, u32, u32, u32);
type PanakoQuery = query_type!(u32, u32, u32, u32, u32, u32, u32, u32, u32);

pub struct Build {
    pub file: String,
    live_counts: [LiveCount; 2],
    wang_query: WangQuery,
    panako_query: PanakoQuery,
}

/// What went wrong last with a shared object.
fn reason() -> String {
    // SAFETY: it is called just after a call that failed, so there is a text.
    unsafe { CStr::from_ptr(dlerror()) }
        .to_string_lossy()
        .into_owned()
}

impl Build {
    /// The build in a shared object, or why it can't be had.
    pub fn load(file: &str) -> Result<Self, String> {
        const NOW: c_int = 2;
        let path = std::fs::canonicalize(file).map_err(|why| format!("{file}: {why}"))?;
        let path = CString::new(path.into_os_string().into_encoded_bytes())
            .map_err(|why| format!("{file}: {why}"))?;
        // SAFETY: the object is one of the library, so to load it runs nothing.
        let object = unsafe { dlopen(path.as_ptr(), NOW) };
        if object.is_null() {
            return Err(reason());
        }
        let named = |name: &CStr| {
            // SAFETY: the object was loaded, and is never unloaded.
            let address = unsafe { dlsym(object, name.as_ptr()) };
            if address.is_null() {
                return Err(reason());
            }
            Ok(address)
        };
        // SAFETY: these are the functions' types (`capi`).
        unsafe {
            Ok(Self {
                file: file.to_string(),
                live_counts: [
                    transmute::<*mut c_void, LiveCount>(named(c"wang_index_live_count")?),
                    transmute::<*mut c_void, LiveCount>(named(c"panako_index_live_count")?),
                ],
                wang_query: transmute::<*mut c_void, WangQuery>(named(c"wang_index_query")?),
                panako_query: transmute::<*mut c_void, PanakoQuery>(named(c"panako_index_query")?),
            })
        }
    }

    pub fn live_count<I: Index>(&self, [r, p, s]: [&[u32]; 3]) -> Answer {
        let mut answer = UNANSWERED;
        let count = self.live_counts[usize::from(!I::HAS_R_MAX)];
        let (refs, postings, stopped) = (r.as_ptr(), p.as_ptr(), s.as_ptr());
        // SAFETY: pointers and lengths are those of slices, here and below.
        unsafe {
            count(
                refs,
                r.len(),
                postings,
                p.len(),
                stopped,
                s.len(),
                &mut answer,
            )
        };
        answer
    }

    pub fn query<I: Index>(
        &self,
        [r, p, s]: [&[u32]; 3],
        scratch: &mut [i64],
        hashes: &[u32],
        rate: u32,
        settings: &Settings,
        set: u32,
    ) -> Answer {
        let mut answer = UNANSWERED;
        macro_rules! ask {
            ($query:expr $(, $scale:ident)*) => {
                unsafe {
                    $query(
                        r.as_ptr(), r.len(), p.as_ptr(), p.len(), s.as_ptr(), s.len(),
                        scratch.as_mut_ptr(), scratch.len(), hashes.as_ptr(), hashes.len(),
                        rate, $(settings.$scale,)* settings.tolerance, settings.min_votes,
                        settings.min_score, settings.min_prominence, set, &mut answer,
                    )
                }
            };
        }
        if I::HAS_R_MAX {
            ask!((self.wang_query));
        } else {
            ask!((self.panako_query), scale_min, scale_max, scale_bins);
        }
        answer
    }
}

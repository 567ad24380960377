//! The builds that are timed: the linked one, and beside it one that stands in
//! a shared object.

use jamturret::lent::{self, Answer};
use jamturret_host::desk::Desk;
use jamturret_host::searches::{InEnvelopes, InJob, InSlices, Searches, LINKED};
use std::ffi::{c_char, c_int, c_void, CString};
use std::mem::transmute;

type Run = unsafe extern "C" fn(
    *const u8,
    usize,
    *mut u8,
    usize,
    *mut u8,
    usize,
    *mut u8,
    usize,
    *mut u8,
    usize,
) -> Answer;

extern "C" {
    fn dlopen(path: *const c_char, flags: c_int) -> *mut c_void;
    fn dlsym(handle: *mut c_void, name: *const c_char) -> *mut c_void;
}

/// dlopen: all symbols are looked up at once.
const RTLD_NOW: c_int = 2;

/// The functions of one build.
#[derive(Clone, Copy)]
pub struct Build {
    pub searches: Searches,
    /// None: the linked library's.
    run: Option<Run>,
}

impl Build {
    pub fn linked() -> Build {
        Build {
            searches: LINKED,
            run: None,
        }
    }

    /// A build in a shared object, which stays loaded.
    pub fn in_object(path: &str) -> Result<Build, String> {
        let name = CString::new(path).map_err(|_| format!("{path}: no path"))?;
        // SAFETY: the names end with a zero byte. What the functions are is
        // what whoever named the object says.
        unsafe {
            let object = dlopen(name.as_ptr(), RTLD_NOW);
            if object.is_null() {
                return Err(format!("{path}: cannot be loaded as a shared object"));
            }
            let find = |name: &str| {
                let symbol = CString::new(name).expect("has no zero byte");
                let found = dlsym(object, symbol.as_ptr());
                if found.is_null() {
                    return Err(format!("{path}: has no {name}"));
                }
                Ok(found)
            };
            Ok(Build {
                searches: Searches::of(
                    transmute::<*mut c_void, InSlices>(find("searches_in_slices")?),
                    transmute::<*mut c_void, InEnvelopes>(find("searches_in_envelopes")?),
                    transmute::<*mut c_void, InJob>(find("searches_in_job")?),
                ),
                run: Some(transmute::<*mut c_void, Run>(find("jamturret_run")?)),
            })
        }
    }

    pub fn run(&self, sheet: &[u8], desk: &mut Desk) -> Answer {
        let Desk {
            inbox,
            report,
            order_out,
            scratch,
            ..
        } = desk;
        let Some(run) = self.run else {
            return lent::run(sheet, inbox, report, order_out, scratch);
        };
        // SAFETY: as in rust/src/lent.rs.
        unsafe {
            run(
                sheet.as_ptr(),
                sheet.len(),
                inbox.as_mut_ptr(),
                inbox.len(),
                report.as_mut_ptr(),
                report.len(),
                order_out.as_mut_ptr(),
                order_out.len(),
                scratch.as_mut_ptr(),
                scratch.len(),
            )
        }
    }
}

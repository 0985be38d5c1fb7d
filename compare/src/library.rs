//! The proved settlement behind its C interface.

use second::names::NameField;

use crate::sides::drafts::{Draft, Drafted, Drafts, Written};
use crate::sides::hours::{Changed, Hour, HourTotals, Hours};
use crate::sides::{
    EntitlementAnswer, Explanation, Figures, LISTING_ROOM, Printed, ReadAnswer, Side,
};

unsafe extern "C" {
    fn m2m_settle(sheet: *const u8, sheet_len: usize, list: *const u8, list_len: usize) -> Figures;
    fn m2m_report(
        sheet: *const u8,
        sheet_len: usize,
        list: *const u8,
        list_len: usize,
        out: *mut u8,
        out_len: usize,
    ) -> Printed;
    fn m2m_read(sheet: *const u8, sheet_len: usize) -> ReadAnswer;
    fn m2m_entitlement(
        list: *const u8,
        list_len: usize,
        name: *const u8,
        name_len: usize,
    ) -> EntitlementAnswer;
    fn m2m_explain(
        sheet: *const u8,
        sheet_len: usize,
        list: *const u8,
        list_len: usize,
    ) -> Explanation;
    fn m2m_hour_open() -> Hour;
    fn m2m_hour_add(
        hour: Hour,
        sheet: *const u8,
        sheet_len: usize,
        list: *const u8,
        list_len: usize,
    ) -> Changed;
    fn m2m_hour_totals(hour: Hour) -> HourTotals;
    fn m2m_read_draft(sheet: *const u8, sheet_len: usize) -> Drafted;
    fn m2m_write_draft(draft: Draft, out: *mut u8, out_len: usize) -> Written;
}

#[derive(Default)]
pub struct Library;

// SAFETY, of each call: slices are handed over with their lengths; the library reads
// the inputs and writes the buffer during the call only.
impl Side for Library {
    fn settle(&self, sheet: &[u8], list: &[u8]) -> Figures {
        unsafe { m2m_settle(sheet.as_ptr(), sheet.len(), list.as_ptr(), list.len()) }
    }

    fn report(&self, sheet: &[u8], list: &[u8], out: &mut [u8]) -> Printed {
        unsafe {
            m2m_report(
                sheet.as_ptr(),
                sheet.len(),
                list.as_ptr(),
                list.len(),
                out.as_mut_ptr(),
                out.len(),
            )
        }
    }

    fn read(&self, sheet: &[u8]) -> ReadAnswer {
        unsafe { m2m_read(sheet.as_ptr(), sheet.len()) }
    }

    fn entitlement(&self, list: &[u8], name: &NameField) -> EntitlementAnswer {
        unsafe { m2m_entitlement(list.as_ptr(), list.len(), name.as_ptr(), name.len()) }
    }

    fn explain(&self, sheet: &[u8], list: &[u8]) -> Explanation {
        unsafe { m2m_explain(sheet.as_ptr(), sheet.len(), list.as_ptr(), list.len()) }
    }
}

// SAFETY, of each call: as above; hours are handed over as copies.
impl Hours for Library {
    fn open(&self) -> Hour {
        unsafe { m2m_hour_open() }
    }

    fn add(&self, hour: &Hour, sheet: &[u8], list: &[u8]) -> Changed {
        unsafe {
            m2m_hour_add(
                *hour,
                sheet.as_ptr(),
                sheet.len(),
                list.as_ptr(),
                list.len(),
            )
        }
    }

    fn totals(&self, hour: &Hour) -> HourTotals {
        unsafe { m2m_hour_totals(*hour) }
    }
}

// SAFETY, of each call: as above; drafts are handed over as copies.
impl Drafts for Library {
    fn read_draft(&self, sheet: &[u8]) -> Drafted {
        unsafe { m2m_read_draft(sheet.as_ptr(), sheet.len()) }
    }

    fn write_draft(&self, draft: &Draft, out: &mut [u8]) -> Written {
        unsafe { m2m_write_draft(*draft, out.as_mut_ptr(), out.len()) }
    }

    fn resettle(&self, sheet: &[u8], import: u32, list: &[u8], out: &mut [u8]) -> Printed {
        let mut drafted = self.read_draft(sheet);
        drafted.draft.points[0].import = import;
        let length = self.write_draft(&drafted.draft, out).length;
        self.report(&out[..length], list, &mut [0; LISTING_ROOM])
    }
}

//! Contexts, and the numbers that the C interface has for them.

use crate::raw::FlatContext;
use crate::{PROGRAM_CAPABILITY, PROGRAM_LINEAR_WIDTH, PROGRAM_WIDTH};

/// What of the processor matters besides the table. A field that is out of
/// its range is answered 1.
#[derive(Clone, Copy, Debug, PartialEq, Eq)]
pub struct Context {
    /// IA32_VMX_EPT_VPID_CAP: any number.
    pub capability: u64,
    /// The physical width N: 36 to 52.
    pub width: u64,
    /// The width of linear addresses: 48 or 57. It says which records a table
    /// may hold; no event changes it.
    pub linear_width: u64,
    /// 0 to 4,095.
    pub pcid: u64,
    /// 0 to 3.
    pub cpl: u64,
    pub place: Place,
}

/// Where the processor is.
#[derive(Clone, Copy, Debug, PartialEq, Eq)]
pub enum Place {
    /// Outside VMX.
    Outside,
    Root,
    Guest {
        /// 0 to 65,535; 0 exactly if VPIDs are not enabled.
        vpid: u64,
        /// The EP4TA, below 2^40; None with EPT off.
        ept: Option<u64>,
    },
}

impl Context {
    /// The context after a reset: outside VMX, PCID 0, CPL 0.
    pub fn after_reset(capability: u64, width: u64, linear_width: u64) -> Context {
        Context {
            capability,
            width,
            linear_width,
            pcid: 0,
            cpl: 0,
            place: Place::Outside,
        }
    }

    /// The context from which the replay program starts.
    pub fn program() -> Context {
        Context::after_reset(PROGRAM_CAPABILITY, PROGRAM_WIDTH, PROGRAM_LINEAR_WIDTH)
    }
}

impl From<&Context> for FlatContext {
    /// Fields that the place lacks are 0.
    fn from(context: &Context) -> FlatContext {
        let (place, vpid, ept) = match context.place {
            Place::Outside => (0, 0, None),
            Place::Root => (1, 0, None),
            Place::Guest { vpid, ept } => (2, vpid, ept),
        };
        FlatContext {
            capability: context.capability,
            width: context.width,
            linear_width: context.linear_width,
            pcid: context.pcid,
            cpl: context.cpl,
            place,
            vpid,
            ept: u64::from(ept.is_some()),
            ep4ta: ept.unwrap_or(0),
        }
    }
}

impl FlatContext {
    /// The context that the numbers stand for; None if the place or the EPT
    /// number stands for nothing.
    pub fn context(&self) -> Option<Context> {
        let place = match (self.place, self.ept) {
            (0, _) => Place::Outside,
            (1, _) => Place::Root,
            (2, 0) => self.guest(None),
            (2, 1) => self.guest(Some(self.ep4ta)),
            _ => return None,
        };
        Some(Context {
            capability: self.capability,
            width: self.width,
            linear_width: self.linear_width,
            pcid: self.pcid,
            cpl: self.cpl,
            place,
        })
    }

    fn guest(&self, ept: Option<u64>) -> Place {
        Place::Guest {
            vpid: self.vpid,
            ept,
        }
    }
}

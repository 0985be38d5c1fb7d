//! The payment of section 7.2, and row 22 for the flow that is paid on.

use crate::refusal::Refusal;
use crate::sheet::{Head, Rto};
use crate::units::{Amount, Price, Watts};

/// Row 22 refuses a flow beyond this.
pub const LARGEST_FLOW: Watts = Watts(10_000_000_000);

/// Positive payments are received.
#[derive(Clone, Copy, Debug, PartialEq, Eq)]
pub struct Payment {
    pub price: Price,
    pub amount: Amount,
    pub nyiso: Amount,
    pub pjm: Amount,
}

/// The payment for a flow beside the entitlement to it.
pub fn payment(head: &Head, flow: Watts, entitlement: Watts) -> Result<Payment, Refusal> {
    if flow.abs() > LARGEST_FLOW {
        return Err(Refusal::FlowOutOfRange);
    }
    let difference = flow - entitlement;
    let price = match difference.0.signum() {
        1 => head.monitoring_price,
        -1 => head.non_monitoring_price,
        _ => Price::ZERO,
    };
    let amount = difference.cost(price, head.seconds);
    let (nyiso, pjm) = match head.monitoring {
        Rto::Nyiso => (amount, -amount),
        Rto::Pjm => (-amount, amount),
    };
    Ok(Payment {
        price,
        amount,
        nyiso,
        pjm,
    })
}

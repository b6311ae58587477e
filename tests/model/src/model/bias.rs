//! The bias sheet's voltages (02, 1/12), in 32-bit floats.

pub fn has_vdd(vdd: u16) -> bool {
    (288..=352).contains(&vdd)
}

pub fn has_span(span: u16) -> bool {
    (192..=512).contains(&span)
}

/// Step 1 and on, in volts: product, quotient and difference, each rounded once.
pub fn volts(vdd: u16, span: u16, divisor: u8) -> Vec<f32> {
    let (vdd, span) = (f32::from(vdd) / 64.0, f32::from(span) / 64.0);
    let step = |step: u8| {
        let product = f32::from(step) * span;
        let quotient = product / f32::from(divisor);
        vdd - quotient
    };
    (1..divisor).map(step).collect()
}

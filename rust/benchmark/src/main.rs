//! Times of the calls on tables of twelve by twelve over the largest denominator, and of
//! walks on tables of four by four.

mod campaign;
mod draw;
mod open;
mod plan;
mod reason;
mod variances;
mod walk;

use benchmark::inputs;

fn main() {
    let tables = inputs::hundred_tables();
    plan::measure(&tables);
    let plans = inputs::stored_plans(&tables);
    reason::measure(&tables, &plans);
    open::measure(&plans);
    draw::measure(&plans);
    campaign::measure(&plans);
    variances::measure(&plans);
    walk::measure();
}

// Compares the library's split with an account of its own, on many filings.
//
// Small filings are dealt out unit by unit, as evenly as whole cents allow, and the prices then counted. Large ones
// are held to what a split promises, in arithmetic of 128 bits.

#[repr(C)]
#[derive(Clone, Copy, Debug, PartialEq)]
struct Runs {
    first_quantity: u64,
    first_price: u64,
    second_quantity: u64,
    second_price: u64,
}

unsafe extern "C" {
    fn grapewinch_split(quantity: u64, shares: u64, amount: u64) -> Runs;
}

fn split(quantity: u64, shares: u64, amount: u64) -> Runs {
    // The function takes any numbers, and touches no memory of the caller's.
    unsafe { grapewinch_split(quantity, shares, amount) }
}

const EMPTY: Runs = Runs { first_quantity: 0, first_price: 0, second_quantity: 0, second_price: 0 };

// The units' prices, dealt out one after the other: unit i gets what the first i + 1 units are due, less what the
// first i were.
fn dealt(quantity: u64, shares: u64, amount: u64) -> Runs {
    if quantity == 0 || shares == 0 || amount % shares != 0 {
        return EMPTY;
    }
    let each = amount / shares;
    let mut prices: Vec<u64> = (0..quantity).map(|i| (i + 1) * each / quantity - i * each / quantity).collect();
    prices.sort();
    let low = prices[0];
    let low_count = prices.iter().filter(|p| **p == low).count() as u64;
    let high_count = quantity - low_count;
    let high = if high_count > 0 { prices[prices.len() - 1] } else { 0 };
    Runs { first_quantity: low_count, first_price: low, second_quantity: high_count, second_price: high }
}

// What a split promises.
fn promised(quantity: u64, shares: u64, amount: u64, r: Runs) -> bool {
    if quantity == 0 || shares == 0 || amount % shares != 0 {
        return r == EMPTY;
    }
    let [q, s, a] = [quantity, shares, amount].map(u128::from);
    let [n, p, m, x] = [r.first_quantity, r.first_price, r.second_quantity, r.second_price].map(u128::from);
    // shares and prices that do not multiply out within 128 bits cannot be right
    let Some(first) = (n * s).checked_mul(p) else { return false };
    let Some(second) = (m * s).checked_mul(x) else { return false };
    n > 0 && n + m == q && first.checked_add(second) == Some(a) && if m > 0 { x == p + 1 } else { x == 0 }
}

fn main() {
    let mut compared = 0u64;
    for quantity in 0..=40 {
        for shares in [0, 1, 2, 10, 100, 1000] {
            for amount in (0..4000).chain((4000..400_000).step_by(997)) {
                let (ours, theirs) = (split(quantity, shares, amount), dealt(quantity, shares, amount));
                assert_eq!(ours, theirs, "{quantity} of {shares} for {amount}");
                assert!(promised(quantity, shares, amount, ours), "{quantity} of {shares} for {amount}");
                compared += 1;
            }
        }
    }
    let mut state = 0x9e37_79b9_7f4a_7c15u64;
    let mut next = || {
        state ^= state << 13;
        state ^= state >> 7;
        state ^= state << 17;
        state
    };
    for _ in 0..1_000_000 {
        let quantity = next() >> (next() % 64);
        let shares = [1, 10, 100, 1000, next() >> (next() % 64)][(next() % 5) as usize];
        // half of the amounts are a multiple of the shares
        let any = next() >> (next() % 64);
        let amount = if next() % 2 == 0 { any } else { any - any.checked_rem(shares).unwrap_or(0) };
        let ours = split(quantity, shares, amount);
        assert!(promised(quantity, shares, amount, ours), "{quantity} of {shares} for {amount}: {ours:?}");
        compared += 1;
    }
    for quantity in [0, 1, 2, 3, u64::MAX - 1, u64::MAX] {
        for shares in [0, 1, 2, 3, u64::MAX - 1, u64::MAX] {
            for amount in [0, 1, 2, 3, u64::MAX - 1, u64::MAX] {
                let ours = split(quantity, shares, amount);
                assert!(promised(quantity, shares, amount, ours), "{quantity} of {shares} for {amount}: {ours:?}");
                compared += 1;
            }
        }
    }
    println!("{compared} filings split alike");
}

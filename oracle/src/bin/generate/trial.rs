//! Steps gone through beforehand, so that walks can be asked for that go far, settle at a chosen
//! step, or meet an error to the last bit. It only chooses requests; no answer rests on it.

pub type Five = [f64; 5];

/// What follows the divisors and the two deviations, in either variant.
struct Half {
    mu_1: f64,
    sigma_1: f64,
    sigma_2: f64,
}

fn half(m: &[f64], mu_2: f64, p: f64) -> Option<Half> {
    let mu_1 = (m[0] - (1.0 - p) * mu_2) / p;
    let divisor = 3.0 * (1.0 - p) * (mu_2 - mu_1);
    let above = m[2] + 2.0 * p * third(mu_1) + (p - 1.0) * third(mu_2)
        - 3.0 * mu_1 * (m[1] + square(mu_2) * (p - 1.0));
    let sigma_2 = (above / divisor).sqrt();
    let (s2, u2) = (square(sigma_2), square(mu_2));
    let sigma_1 = (((m[1] - s2 - u2) / p) + s2 + u2 - square(mu_1)).sqrt();
    // a root of a negative number, like a zero divisor, ends up here as NaN or infinity
    (sigma_1.is_finite() && sigma_2.is_finite()).then_some(Half {
        mu_1,
        sigma_1,
        sigma_2,
    })
}

fn square(x: f64) -> f64 {
    x * x
}

fn third(x: f64) -> f64 {
    x * (x * x)
}

fn fourth(x: f64) -> f64 {
    square(square(x))
}

fn fifth(x: f64) -> f64 {
    x * fourth(x)
}

fn step_4(m: &[f64], mu_2: f64, p: f64) -> Option<Five> {
    let Half {
        mu_1,
        sigma_1,
        sigma_2,
    } = half(m, mu_2, p)?;
    let (s1, s2) = (square(sigma_1), square(sigma_2));
    let (u1, u2) = (square(mu_1), square(mu_2));
    let below =
        3.0 * (fourth(sigma_1) - fourth(sigma_2)) + 6.0 * (s1 * u1 - s2 * u2) + fourth(mu_1)
            - fourth(mu_2);
    let weight = (m[3] - 3.0 * fourth(sigma_2) - 6.0 * s2 * u2 - fourth(mu_2)) / below;
    (0.0..=1.0)
        .contains(&weight)
        .then_some([mu_1, mu_2, sigma_1, sigma_2, weight])
}

fn step_5(m: &[f64], mu_2: f64, p: f64) -> Option<Five> {
    let Half {
        mu_1,
        sigma_1,
        sigma_2,
    } = half(m, mu_2, p)?;
    let (s1, s2) = (square(sigma_1), square(sigma_2));
    let first = 3.0 * fourth(sigma_1) + 6.0 * s1 * square(mu_1) + fourth(mu_1);
    let inner = (6.0 * fourth(sigma_2) + (m[3] - p * first) / (1.0 - p)).sqrt();
    let mean = (inner - 3.0 * s2).sqrt();
    let a = 15.0 * fourth(sigma_1) * mu_1 + 10.0 * s1 * third(mu_1) + fifth(mu_1);
    let b = 15.0 * fourth(sigma_2) * mean + 10.0 * s2 * third(mean) + fifth(mean);
    let weight = (m[4] - b) / (a - b);
    let admitted = 1.0 - p >= 1e-4 && (0.0..=1.0).contains(&weight);
    admitted.then_some([mu_1, mean, sigma_1, sigma_2, weight])
}

type Step = fn(&[f64], f64, f64) -> Option<Five>;

/// The admitted steps from a start, at most so many, settled or not.
pub fn trail(variant: u64, moments: &[f64], start: (f64, f64), most: usize) -> Vec<Five> {
    let (step, need) = if variant == 1 {
        (step_4 as Step, 4)
    } else {
        (step_5 as Step, 5)
    };
    let (mut mean, mut weight) = start;
    let mut out = Vec::new();
    while out.len() < most && moments.len() >= need {
        let Some(five) = step(moments, mean, weight) else {
            break;
        };
        (mean, weight) = (five[1], five[4]);
        out.push(five);
    }
    out
}

/// The squared error of a step, over at most five moments.
pub fn error(moments: &[f64], five: &Five) -> f64 {
    let [u_1, u_2, s_1, s_2, p_1] = *five;
    let p_2 = 1.0 - p_1;
    let (v_1, v_2, w_1, w_2) = (square(s_1), square(s_2), square(u_1), square(u_2));
    let fitted = [
        p_1 * u_1 + p_2 * u_2,
        p_1 * (v_1 + w_1) + p_2 * (v_2 + w_2),
        p_1 * (3.0 * v_1 * u_1 + third(u_1)) + p_2 * (3.0 * v_2 * u_2 + third(u_2)),
        p_1 * (3.0 * fourth(s_1) + 6.0 * v_1 * w_1 + fourth(u_1))
            + p_2 * (3.0 * fourth(s_2) + 6.0 * v_2 * w_2 + fourth(u_2)),
        p_1 * (15.0 * fourth(s_1) * u_1 + 10.0 * v_1 * third(u_1) + fifth(u_1))
            + p_2 * (15.0 * fourth(s_2) * u_2 + 10.0 * v_2 * third(u_2) + fifth(u_2)),
    ];
    moments.iter().zip(fitted).map(|(a, b)| square(a - b)).sum()
}

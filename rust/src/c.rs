//! include/woddirme.h. A list is a pointer and how many numbers it points to; a pointer is never null,
//! and what is written overlaps with nothing else that is lent, as Rust's references have it.

/// woddirme_iter_4 or woddirme_iter_5.
pub type Step =
    unsafe extern "C" fn(*const f64, usize, f64, f64, *mut usize, *mut f64, usize) -> u64;

extern "C" {
    pub fn woddirme_sqrt(x: f64) -> f64;
    pub fn woddirme_abs(x: f64) -> f64;
    pub fn woddirme_is_finite(x: f64) -> bool;
    pub fn woddirme_larger(x: f64, y: f64) -> f64;
    pub fn woddirme_as_i64(x: f64) -> i64;
    pub fn woddirme_as_usize(x: f64) -> usize;
    pub fn woddirme_i64_as_f64(n: i64) -> f64;
    pub fn woddirme_powi(x: f64, n: usize) -> f64;

    pub fn woddirme_get_moments(
        mu_1: f64,
        mu_2: f64,
        sigma_1: f64,
        sigma_2: f64,
        p_1: f64,
        moments: *mut f64,
        moments_len: usize,
    ) -> u64;
    pub fn woddirme_centered_moment(
        moments: *const f64,
        moments_len: usize,
        order: usize,
        moment: *mut f64,
    ) -> u64;
    pub fn woddirme_raw_moment(
        central: *const f64,
        central_len: usize,
        mean: f64,
        raw: *mut f64,
        raw_len: usize,
    ) -> u64;

    pub fn woddirme_iter_4(
        moments: *const f64,
        moments_len: usize,
        mu_2: f64,
        p_1: f64,
        admitted: *mut usize,
        numbers: *mut f64,
        numbers_len: usize,
    ) -> u64;
    pub fn woddirme_iter_5(
        moments: *const f64,
        moments_len: usize,
        mu_2: f64,
        p_1: f64,
        admitted: *mut usize,
        numbers: *mut f64,
        numbers_len: usize,
    ) -> u64;
    pub fn woddirme_iterate_from(
        moments: *const f64,
        moments_len: usize,
        variant: usize,
        factor: f64,
        max_iter: usize,
        mu_2: f64,
        p_1: f64,
        fit: *mut f64,
        fit_len: usize,
        count: *mut usize,
        reason: *mut u64,
    ) -> u64;

    pub fn woddirme_single_fit_loop(
        moments: *const f64,
        moments_len: usize,
        variant: usize,
        factor: f64,
        max_iter: usize,
        epsilon_override: *const f64,
        epsilon_override_len: usize,
        weights: *const f64,
        weights_len: usize,
        fit: *mut f64,
        fit_len: usize,
        row: *mut f64,
        row_len: usize,
        rows: *mut usize,
    ) -> u64;
    pub fn woddirme_mp_fit(
        moments: *const f64,
        moments_len: usize,
        variant: usize,
        factor: f64,
        max_iter: usize,
        n_runs: usize,
        weights: *const f64,
        weights_len: usize,
        fit: *const f64,
        fit_len: usize,
        rows: *mut f64,
        rows_len: usize,
        count: *mut usize,
    ) -> u64;

    pub fn woddirme_get_concurrent_sides(
        starts: *const i64,
        starts_len: usize,
        ends: *const i64,
        ends_len: usize,
        sides: *const f64,
        sides_len: usize,
        long: *mut f64,
        long_len: usize,
        short: *mut f64,
        short_len: usize,
    ) -> u64;
    pub fn woddirme_bet_size_budget(
        starts: *const i64,
        starts_len: usize,
        ends: *const i64,
        ends_len: usize,
        sides: *const f64,
        sides_len: usize,
        size: *mut f64,
        size_len: usize,
    ) -> u64;
    pub fn woddirme_get_w_sigmoid(price_div: f64, m_bet_size: f64) -> f64;
    pub fn woddirme_inv_price_sigmoid(forecast_price: f64, w_param: f64, m_bet_size: f64) -> f64;
    pub fn woddirme_limit_price_sigmoid(
        t_pos: f64,
        pos: f64,
        f: f64,
        w: f64,
        max_pos: f64,
        price: *mut f64,
    ) -> u64;

    pub fn woddirme_count_sheet(
        sheet: *const u8,
        sheet_len: usize,
        out: *mut u8,
        out_len: usize,
    ) -> usize;
}

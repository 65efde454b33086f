//! Stands in for statrs, which is not to be had offline: the normal law's two tails, and no more.
//! `new` refuses what statrs's documentation says it refuses: a mean or deviation that is NaN, or a
//! deviation that is not above 0.
pub mod distribution {
    pub trait ContinuousCDF<K, T> {
        fn cdf(&self, x: K) -> T;
        fn sf(&self, x: K) -> T;
    }

    #[derive(Debug)]
    pub struct BadParams;

    /// What one of the two ways of making the law was given.
    enum Spread {
        Deviation(f64),
        Variance(f64),
    }

    pub struct Normal {
        mean: f64,
        spread: Spread,
    }

    fn checked(mean: f64, deviation: f64, spread: Spread) -> Result<Normal, BadParams> {
        if mean.is_nan() || deviation.is_nan() || deviation <= 0.0 {
            return Err(BadParams);
        }
        Ok(Normal { mean, spread })
    }

    impl Normal {
        pub fn new(mean: f64, deviation: f64) -> Result<Normal, BadParams> {
            checked(mean, deviation, Spread::Deviation(deviation))
        }

        /// Called by the port build's copy alone: the port's tails take the variance.
        pub fn of_variance(mean: f64, variance: f64) -> Result<Normal, BadParams> {
            checked(mean, functions::sqrt(variance), Spread::Variance(variance))
        }
    }

    impl ContinuousCDF<f64, f64> for Normal {
        fn cdf(&self, x: f64) -> f64 {
            match self.spread {
                Spread::Deviation(deviation) => functions::tails::lower((x - self.mean) / deviation),
                Spread::Variance(variance) => functions::lower_tail(self.mean, variance, x),
            }
        }

        fn sf(&self, x: f64) -> f64 {
            match self.spread {
                Spread::Deviation(deviation) => functions::tails::upper((x - self.mean) / deviation),
                Spread::Variance(variance) => functions::upper_tail(self.mean, variance, x),
            }
        }
    }
}

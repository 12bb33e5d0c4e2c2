// The pair of ends that the published text uses and doesn't bring along.
pub struct Extrema<T> {
    pub min: T,
    pub max: T,
}

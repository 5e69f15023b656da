//! Configurations: signed orders of the indices, and the elements in stored order.

/// "A configuration is a signed order of the indices, fast to slow".
pub type Order = Vec<i8>;

/// The three indices of an element, those past N being 0.
pub type Indices = [usize; 3];

/// All orders for N, in the order of their numbers from 1.
/// "take the order of number q + 1 for N - 1 and insert N with k div 2 places after it, negative if k is odd."
pub fn all_orders(n: u8) -> Vec<Order> {
    if n == 0 {
        return vec![vec![]];
    }
    let smaller = all_orders(n - 1);
    (0..2 * n).flat_map(|k| smaller.iter().map(move |order| inserted(order, n, k))).collect()
}

fn inserted(order: &Order, n: u8, k: u8) -> Order {
    let (fast, slow) = order.split_at(order.len() - usize::from(k / 2));
    let index = if k % 2 == 1 { -(n as i8) } else { n as i8 };
    [fast, &[index], slow].concat()
}

/// The order of a configuration number, none where it is not "1 to 2^N N!".
pub fn order_of(n: u8, number: i64) -> Option<Order> {
    let place = usize::try_from(number.checked_sub(1)?).ok()?;
    all_orders(n).get(place).cloned()
}

/// All elements in stored order: the slowest index varies least, the fastest most.
pub fn stored_elements(order: &Order, dims: &Indices) -> Vec<Indices> {
    order.iter().rev().fold(vec![[0; 3]], |elements, &index| vary(&elements, index, dims))
}

/// Each element once for every value of this index, "Dim - 1 - index where negative".
fn vary(elements: &[Indices], index: i8, dims: &Indices) -> Vec<Indices> {
    let axis = usize::from(index.unsigned_abs()) - 1;
    let values: Vec<usize> = match index < 0 {
        true => (0..dims[axis]).rev().collect(),
        false => (0..dims[axis]).collect(),
    };
    let with = |element: &Indices, value: usize| {
        let mut varied = *element;
        varied[axis] = value;
        varied
    };
    elements.iter().flat_map(|element| values.iter().map(move |&value| with(element, value))).collect()
}

/// For each element in delivered order, "Delivered arrays have configuration 1", its stored place:
/// the stored places sorted by their elements, slowest index first.
pub fn stored_places(order: &Order, dims: &Indices) -> Vec<usize> {
    let mut places: Vec<(usize, usize, usize, usize)> =
        stored_elements(order, dims).iter().zip(0..).map(|(e, place)| (e[2], e[1], e[0], place)).collect();
    places.sort();
    places.into_iter().map(|(_, _, _, place)| place).collect()
}

#[cfg(test)]
mod tests {
    use super::*;

    /// An array 3 by 2, delivered 1 2 3 4 5 6, as stored.
    fn stored(number: i64) -> Vec<usize> {
        let places = stored_places(&order_of(2, number).unwrap(), &[3, 2, 1]);
        (0..6).map(|place| 1 + places.iter().position(|&p| p == place).unwrap()).collect()
    }

    #[test]
    fn examples_3_by_2() {
        assert_eq!(stored(1), [1, 2, 3, 4, 5, 6]);
        assert_eq!(stored(2), [3, 2, 1, 6, 5, 4]);
        assert_eq!(stored(5), [1, 4, 2, 5, 3, 6]);
        assert_eq!(stored(6), [3, 6, 2, 5, 1, 4]);
        assert_eq!(stored(7), [4, 1, 5, 2, 6, 3]);
    }

    #[test]
    fn examples_of_orders() {
        assert_eq!(all_orders(1), [[1], [-1]]);
        assert_eq!(order_of(2, 6), Some(vec![2, -1]));
        assert_eq!(order_of(3, 17), Some(vec![1, 3, 2]));
        assert_eq!(order_of(3, 48), Some(vec![-3, -2, -1]));
    }

    #[test]
    fn as_many_orders_as_numbers() {
        for (n, count) in [(1, 2), (2, 8), (3, 48)] {
            let mut orders = all_orders(n);
            assert_eq!(order_of(n, count + 1), None);
            assert_eq!(order_of(n, 0), None);
            assert_eq!(order_of(n, i64::MIN), None);
            orders.sort();
            orders.dedup();
            assert_eq!(orders.len() as i64, count);
        }
    }

    #[test]
    fn each_place_once() {
        for order in all_orders(3) {
            let mut places = stored_places(&order, &[4, 3, 2]);
            places.sort();
            assert_eq!(places, (0..24).collect::<Vec<usize>>());
        }
        assert!(stored_places(&vec![1], &[0, 1, 1]).is_empty());
    }

    /// "along the order, fastest first, each index (or Dim - 1 - index where negative)
    /// times the product of the Dims before it, summed."
    #[test]
    fn places_are_the_sums_of_01() {
        let dims = [4, 3, 2];
        for order in all_orders(3) {
            for (place, element) in stored_elements(&order, &dims).iter().enumerate() {
                let mut sum = 0;
                let mut product = 1;
                for &index in &order {
                    let axis = usize::from(index.unsigned_abs()) - 1;
                    let along = if index < 0 { dims[axis] - 1 - element[axis] } else { element[axis] };
                    sum += along * product;
                    product *= dims[axis];
                }
                assert_eq!(place, sum);
            }
        }
    }
}

//! A query: the order of its variables, and its atoms.
use crate::calls;
use crate::Refusal;

/// A query over tables: variables 0 to n - 1 in the order in which they are bound, and atoms, each a table's number and its variables in that order.
///
/// Nothing is checked here. A query that does not pass the checks is refused by the join, also one with more atoms or variables than a query may have.
#[derive(Clone, Debug, Default)]
pub struct Query {
    pub(crate) query: calls::Query,
}

/// As many of the words as there is room for. Where words are left out, the count beside the array says how many there were, and the join refuses it.
fn leading<T: Copy>(into: &mut [T], from: impl IntoIterator<Item = T>) {
    into.iter_mut().zip(from).for_each(|(place, item)| *place = item);
}

impl Query {
    pub fn new(order: &[usize]) -> Query {
        let mut query = calls::Query { n: order.len() as u64, ..Default::default() };
        leading(&mut query.order, order.iter().map(|&v| v as u64));
        Query { query }
    }

    /// Adds an atom over the table of this number in the list that the join is given.
    pub fn atom(self, table: usize, variables: &[usize]) -> Query {
        self.with(calls::Atom { table: table as u64, ..Default::default() }, variables)
    }

    /// Adds an atom over the rows that count of two tables of that list, a school's laid over a maker's: all rows of the school's, and those of the maker's
    /// whose first key the school's lacks.
    ///
    /// ```
    /// # fn main() -> Result<(), ducatbriar::Refusal> {
    /// use ducatbriar::{Pool, Query, SeekStrategy};
    /// let mut pool = Pool::new();
    /// let maker = pool.build(2, 4, &[[7, 470], [8, 900], [8, 910]])?;
    /// let school = pool.build(2, 4, &[[8, 850], [9, 160]])?;
    /// let query = Query::new(&[0, 1]).laid_over(0, 1, &[0, 1]);
    /// let rows = pool.join(SeekStrategy::Galloping, &[&school, &maker], &query)?;
    /// assert_eq!(rows.iter().collect::<Vec<_>>(), [[7, 470], [8, 850], [9, 160]]);
    /// # Ok(())
    /// # }
    /// ```
    pub fn laid_over(self, school: usize, maker: usize, variables: &[usize]) -> Query {
        self.with(calls::Atom { table: school as u64, laid_over: true, maker: maker as u64, ..Default::default() }, variables)
    }

    fn with(mut self, mut atom: calls::Atom, variables: &[usize]) -> Query {
        atom.len = variables.len() as u64;
        leading(&mut atom.variables, variables.iter().map(|&v| v as u64));
        if let Some(place) = self.query.atoms.get_mut(self.query.atom_count as usize) {
            *place = atom;
        }
        self.query.atom_count += 1;
        self
    }

    /// The table and the variables of each atom, of a query that passed the checks; of one that is laid over the school's table, whose kinds the maker's has.
    pub(crate) fn atoms(&self) -> impl Iterator<Item = (usize, impl Iterator<Item = usize> + '_)> + '_ {
        let atoms = &self.query.atoms[..self.query.atom_count as usize];
        atoms.iter().map(|atom| (atom.table as usize, atom.variables[..atom.len as usize].iter().map(|&v| v as usize)))
    }

    /// The query whose atoms follow the order where they went against it: `rebuilt` is asked for a table with the columns of an atom's table in the sequence in
    /// which the order binds them, and answers its number, or none if there is no such table.
    pub(crate) fn followed(
        &self,
        mut rebuilt: impl FnMut(usize, &[usize]) -> Result<Option<usize>, Refusal>,
    ) -> Result<Query, Refusal> {
        let mut followed = self.clone();
        for atom in followed.query.atoms.iter_mut().take(self.query.atom_count as usize).filter(|atom| !atom.laid_over) {
            let Some(columns) = self.in_sequence(atom).filter(|columns| !columns.is_sorted()) else {
                continue;
            };
            if let Some(number) = rebuilt(atom.table as usize, &columns)? {
                let list = atom.variables;
                atom.table = number as u64;
                leading(&mut atom.variables, columns.iter().map(|&column| list[column]));
            }
        }
        Ok(followed)
    }

    /// An atom's columns in the sequence in which the order binds their variables, if these are variables of the query and all different.
    fn in_sequence(&self, atom: &calls::Atom) -> Option<Vec<usize>> {
        let order = self.query.order.get(..self.query.n as usize)?;
        let list = atom.variables.get(..atom.len as usize)?;
        let places: Vec<usize> = list.iter().map(|v| order.iter().position(|w| w == v)).collect::<Option<_>>()?;
        let mut columns: Vec<usize> = (0..list.len()).collect();
        columns.sort_by_key(|&column| places[column]);
        columns.windows(2).all(|pair| places[pair[0]] < places[pair[1]]).then_some(columns)
    }

    /// How many variables it has, and so how many words a row.
    pub fn variables(&self) -> usize {
        self.query.n as usize
    }
}

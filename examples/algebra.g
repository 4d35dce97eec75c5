# For GAP: an algebra from the record that the view gap writes. Read that first, as in
#   fplsa gap 7 < examples/type_g2.fpl > g2.g; gap -q -A g2.g examples/algebra.g
# fplsa_field        the field of the record
# fplsa_element      the combination that a list of pairs says: the number of a basis element, and its coefficient
# fplsa_constants    the brackets as a table of structure constants. GAP has no superalgebras: all must be even
# fplsa_algebra      the Lie algebra that they are, with the basis of the record
# fplsa_image        the image of the generator with a name
fplsa_field := function(record)
  if record.characteristic = 0 then return Rationals; fi;
  return GF(record.characteristic);
end;;

fplsa_constants := function(record)
  local field, table, bracket, entry;
  if 1 in record.parities then Error("odd elements"); fi;
  field := fplsa_field(record);
  table := EmptySCTable(Length(record.weights), Zero(field), "antisymmetric");
  for bracket in record.brackets do
    entry := Concatenation(List(bracket[3], pair -> [pair[2] * One(field), pair[1]]));
    SetEntrySCTable(table, bracket[1], bracket[2], entry);
  od;
  return table;
end;;

fplsa_algebra := function(record)
  return LieAlgebraByStructureConstants(fplsa_field(record), fplsa_constants(record));
end;;

fplsa_element := function(record, algebra, pairs)
  local basis, one;
  basis := Basis(algebra);
  one := One(fplsa_field(record));
  return Sum(pairs, pair -> pair[2] * one * basis[pair[1]], Zero(algebra));
end;;

fplsa_image := function(record, algebra, name)
  return fplsa_element(record, algebra, record.images[Position(record.names, name)]);
end;;

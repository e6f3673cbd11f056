%% Rows and depth that document 01 gives to a term of the node, and its atoms.
-module(measure).
-export([rows/1, depth/1, atoms/1]).

rows(Term) -> 1 + lists:sum([rows(Part) || Part <- parts(Term)]).
depth(Term) -> 1 + lists:max([0 | [depth(Part) || Part <- parts(Term)]]).

atoms(Atom) when is_atom(Atom) -> [Atom];
atoms(Term) -> lists:usort(lists:append([atoms(Part) || Part <- parts(Term)])).

%% Nodes, modules, functions and arities are parts.
parts(Tuple) when is_tuple(Tuple) -> tuple_to_list(Tuple);
parts([]) -> [];
parts(List) when is_list(List) -> elements(List);
parts(Map) when is_map(Map) -> lists:append([[Key, Value] || {Key, Value} <- maps:to_list(Map)]);
parts(Term) when is_pid(Term); is_port(Term); is_reference(Term) -> [node(Term)];
parts(Fun) when is_function(Fun) -> [element(2, erlang:fun_info(Fun, Item)) || Item <- [module, name, arity]];
parts(_) -> [].

elements([Element | Rest]) when is_list(Rest) -> [Element | elements(Rest)];
elements([Element | Tail]) -> [Element, Tail];
elements([]) -> [].

%% What the parts of gather share: refusals, texts and lists of names.
-module(gather_text).
-export([refuse/2, usage/2, text/2, names/1, unique/1, doubles/1, near/2]).

%% Ends with a text about what was read, or about the command line.
refuse(Format, Values) -> throw({refused, text(Format, Values)}).
usage(Format, Values) -> throw({usage, text(Format, Values)}).

text(Format, Values) -> lists:flatten(io_lib:format(Format, Values)).
names(Names) -> lists:flatten(lists:join(", ", [text("~ts", [N]) || N <- Names])).
unique(List) -> lists:foldr(fun(E, Kept) -> [E | lists:delete(E, Kept)] end, [], List).
doubles(List) -> unique(List -- unique(List)).

%% The one of some words that a misspelt one is near to: at most two letters are left out, put in or other ones. Short words are
%% near to too much.
near(Word, Words) ->
    Found = [{distance(Word, Other), Other} || Other <- Words, length(Other) >= 5, abs(length(Other) - length(Word)) =< 2],
    case lists:sort([Pair || {Distance, _} = Pair <- Found, Distance =< 2]) of
        [{0, _} | _] -> none;
        [{_, Nearest} | _] -> {near, Nearest};
        [] -> none
    end.

%% How many letters have to be left out, put in or replaced to make one word of the other: by rows of a table with a letter each.
distance(Left, Right) ->
    lists:last(lists:foldl(fun(C, [Corner | _] = Above) -> row(C, Right, Above, [Corner + 1]) end,
                           lists:seq(0, length(Right)), Left)).

row(_, [], _, Done) -> lists:reverse(Done);
row(C, [D | Right], [Corner, Up | Above], [Beside | _] = Done) ->
    Same = case C of D -> 0; _ -> 1 end,
    row(C, Right, [Up | Above], [lists:min([Corner + Same, Up + 1, Beside + 1]) | Done]).

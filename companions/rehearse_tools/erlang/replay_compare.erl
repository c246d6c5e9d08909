%% What stands beside what: the lines of an answer against those of the nodes.
-module(replay_compare).
-export([rows/2, taken/3]).

%% Whether two answers agree, and their rows {Mark, Line, Line}: the lines on the left, with the same ones of the nodes beside
%% them, and between them those of the nodes alone, each behind the line that is before it there. < marks what only the left
%% has, > what only the nodes have.
rows(Left, Right) -> compared(keyed(Left), keyed(Right)).

%% Which of the outcomes {Lines, Orders} that companions/live tells the nodes take: one that an order of messages gives by which
%% all commands so far came out as they did. Gives whether there is one, its lines and rows, and the orders that are left; where
%% there is none, the first outcome of those orders, which are kept.
taken(Outcomes, Orders, Right) ->
    Ours = fun(Which) -> [Order || Order <- Which, lists:member(Order, Orders)] end,
    Open = [{Lines, Ours(Which)} || {Lines, Which} <- Outcomes, Ours(Which) =/= []],
    Compared = [{rows(Lines, Right), Lines, Left} || {Lines, Left} <- Open],
    case [One || {{true, _}, _, _} = One <- Compared] of
        [{{true, Rows}, Lines, _} | _] = Same -> {true, Lines, Rows, lists:append([Left || {_, _, Left} <- Same])};
        [] ->
            {{false, Rows}, Lines, _} = hd(Compared),
            {false, Lines, Rows, Orders}
    end.

%% Lines with the key by which they are compared: below a node of a report that node stands before the line.
keyed(Lines) ->
    {Keyed, _} = lists:mapfoldl(fun("node " ++ _ = Line, _) -> {{Line, Line}, hd(tl(words(Line)))};
                                   ("  " ++ _ = Line, Node) -> {{Node ++ Line, Line}, Node};
                                   (Line, Node) -> {{Line, Line}, Node} end, "", Lines),
    Keyed.

compared(Left, Right) ->
    {Rows, Others} = lists:mapfoldl(fun({Key, Line}, Rest) ->
        case lists:keytake(Key, 1, Rest) of
            {value, _, Fewer} -> {{Key, $\s, Line, Line}, Fewer};
            false -> {{Key, case is_compared(Line) of true -> $<; false -> $\s end, Line, ""}, Rest}
        end end, Right, Left),
    Before = maps:from_list(lists:zip([Key || {Key, _} <- Right], ["" | [Key || {Key, _} <- lists:droplast(Right)]])),
    All = lists:foldl(fun({Key, Line}, So) -> behind(maps:get(Key, Before), {Key, $>, "", Line}, So) end, Rows, Others),
    Turned = [{"", $>, "", "in another order: " ++ lists:append(lists:join(", ", Moves))} || Others =:= [],
              Moves <- [moves(App, Right) || App <- apps_in(Right), moves(App, Right) =/= moves(App, Left)]],
    Marked = [{Mark, Text, Other} || {_, Mark, Text, Other} <- All ++ Turned],
    {[Mark || {Mark, _, _} <- Marked, Mark =/= $\s] =:= [], Marked}.

behind(Key, Row, Rows) ->
    {Front, Rest} = lists:splitwith(fun({Other, _, _, _}) -> Other =/= Key end, Rows),
    case Rest of
        [Before | More] -> Front ++ [Before, Row | More];
        [] -> Rows ++ [Row]
    end.

words(Line) -> string:lexemes(Line, " ").

%% Not compared is what the nodes can't tell of a state.
is_compared(Line) -> not lists:member(hd(words(Line)), ["now", "app", "timer", "forbidden"]).

%% The applications that move: both a start and a stop of theirs is there.
apps_in(Lines) ->
    Done = [{Word, App} || {_, Line} <- Lines, [Word, App | _] <- [words(Line)]],
    lists:usort([App || {"started", App} <- Done, lists:member({"stopped", App}, Done)]).

%% In which order an application starts and stops.
moves(App, Lines) ->
    [Line || {_, Line} <- Lines, [Word, A | _] <- [words(Line)], A =:= App, lists:member(Word, ["started", "stopped"])].

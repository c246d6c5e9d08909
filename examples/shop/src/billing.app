{application, billing, [
    {description, "Bills the customers"},
    {vsn, "1.0"},
    {modules, [billing_app, billing_sup]},
    {registered, [billing_sup]},
    {applications, [kernel, stdlib, pool]},
    {mod, {billing_app, #{currency => <<"EUR">>}}},
    {start_phases, [{take_up, []}]}]}.

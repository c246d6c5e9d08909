{application, pool, [
    {description, "Connections to the database"},
    {vsn, "1.0"},
    {modules, [pool_app, pool_sup]},
    {registered, [pool_sup]},
    {applications, [kernel, stdlib]},
    {mod, {pool_app, []}}]}.

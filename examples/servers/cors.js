const rows = [
    { origin: 'http://page.test', methods: ['GET', 'PUT'], names: ['x-token'], credentials: true },
    { origin: 'https://admin.test', methods: ['GET', 'PUT', 'DELETE'], names: ['content-type', 'x-token'], credentials: false },
];

function cors(request, response, next) {
    const row = rows.find(row => row.origin === request.headers.origin);
    const preflight = request.method === 'OPTIONS' && 'access-control-request-method' in request.headers;
    response.setHeader('Vary', 'Origin');
    if (!row || !preflight && !row.methods.includes(request.method)) {
        response.statusCode = 403;
        return response.end();
    }
    response.setHeader('Access-Control-Allow-Origin', row.origin);
    if (row.credentials) response.setHeader('Access-Control-Allow-Credentials', 'true');
    if (!preflight) return next();
    if (row.methods.length) response.setHeader('Access-Control-Allow-Methods', row.methods.join(','));
    if (row.names.length) response.setHeader('Access-Control-Allow-Headers', row.names.join(','));
    response.statusCode = 204;
    response.end();
}

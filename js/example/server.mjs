// The API of a shop, whose pages are at https://app.example. Its CORS is wrong.
export function answer(request, response) {
  response.setHeader("Access-Control-Allow-Origin", "https://app.example");
  if (request.method === "OPTIONS") {
    response.setHeader("Access-Control-Allow-Methods", "GET, POST");
    response.setHeader("Access-Control-Allow-Headers", "Authorization");
    response.writeHead(204).end();
  } else {
    response.writeHead(201, { "Content-Type": "application/json" }).end('{"id": 1}');
  }
}

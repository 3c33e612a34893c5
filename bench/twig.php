<?php
// Renders the template argv[2] over the object in argv[1] by Twig, for bench/run.
require '/usr/share/php/Twig/autoload.php';
ini_set('memory_limit', '-1');
$environment = new \Twig\Environment(new \Twig\Loader\FilesystemLoader('.'), ['autoescape' => 'name']);
echo $environment->render($argv[2], json_decode(file_get_contents($argv[1]), true));
